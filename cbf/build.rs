//! Links Debian's libcbf.a. The shared library would load HDF5 and 32 more at every start of the command; of the archive only the parts
//! that write a CBF are taken, which need none of them.
use std::path::Path;
use std::process::Command;

fn main() {
    println!("cargo:rerun-if-changed=build.rs");
    let asked = Command::new("cc").arg("-print-file-name=libcbf.a").output();
    let said = asked.map(|answer| String::from_utf8_lossy(&answer.stdout).trim().to_string()).unwrap_or_default();
    let library = Path::new(&said);
    let folder =
        library.parent().filter(|_| library.is_absolute()).unwrap_or_else(|| panic!("libcbf.a is missing: make deps"));
    println!("cargo:rustc-link-search=native={}", folder.display());
    println!("cargo:rustc-link-lib=static=cbf");
    println!("cargo:rustc-link-lib=m");
}
