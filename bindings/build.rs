//! Links the static library. QUAYRUDDER_LIB names it where it stands elsewhere.
use std::path::{Path, PathBuf};

fn main() {
    println!("cargo:rerun-if-env-changed=QUAYRUDDER_LIB");
    let given = std::env::var_os("QUAYRUDDER_LIB").map(PathBuf::from);
    let usual = Path::new(env!("CARGO_MANIFEST_DIR")).join("../target/staticlib/libquayrudder.a");
    let library = given.unwrap_or(usual);
    let library =
        std::fs::canonicalize(&library).unwrap_or_else(|_| panic!("{} is missing: make staticlib", library.display()));
    let folder = library.parent().unwrap_or(Path::new("/"));
    println!("cargo:rerun-if-changed={}", library.display());
    println!("cargo:rustc-link-search=native={}", folder.display());
    println!("cargo:rustc-link-lib=static=quayrudder");
}
