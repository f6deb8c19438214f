//! The demonstration, whose output stands in the README.
mod common;
use std::path::Path;
use std::process::Command;

#[test]
fn the_readme_shows_what_the_demonstration_says() {
    let root = Path::new(env!("CARGO_MANIFEST_DIR")).parent().unwrap();
    let readme = std::fs::read_to_string(root.join("README.md")).unwrap();
    let folder = common::folder();
    let mut demo = Command::new(root.join("cli/demo.sh"));
    demo.envs(common::command().get_envs().filter_map(|(name, value)| value.map(|value| (name, value))));
    let ran = common::ran(demo.arg(env!("CARGO_BIN_EXE_quayrudder")).arg(folder.join("demo")).output().unwrap());
    assert_eq!((ran.status, ran.err.as_str()), (Some(0), ""));
    let shown: String = ran.out.lines().map(|line| format!("    {line}\n")).collect();
    assert!(readme.contains(&shown), "README.md should have\n{shown}");
}
