//! The completions of each shell, by the real command.
mod common;
use common::{command, ran};
use serde_json::Value;

/// The commands that `--help` lists.
fn commands() -> Vec<String> {
    let help = ran(command().arg("--help").output().unwrap()).out;
    let listed = help.lines().skip_while(|line| *line != "Commands:").skip(1).take_while(|line| !line.is_empty());
    let names = listed.filter(|line| !line.starts_with("   ")).filter_map(|line| line.split_whitespace().next());
    names.map(String::from).collect()
}

#[test]
fn each_shell_gets_every_command() {
    let names = commands();
    assert!(names.contains(&"may-purge".to_string()) && names.len() > 15, "{names:?}");
    for shell in ["bash", "zsh", "fish"] {
        let said = ran(command().args(["completions", shell]).output().unwrap());
        assert_eq!((said.status, said.err.as_str()), (Some(0), ""));
        let wanted = names.iter().map(String::as_str).chain(["names-from", "shorten"]);
        let lacking: Vec<&str> = wanted.filter(|word| !said.out.contains(word)).collect();
        assert!(lacking.is_empty(), "{shell} lacks {lacking:?}");
        let object = ran(command().args(["completions", shell, "--json"]).output().unwrap());
        let value: Value = serde_json::from_str(&object.out).unwrap();
        let script = value["script"].as_str().unwrap().trim_end();
        assert_eq!((value["shell"].as_str(), script), (Some(shell), said.out.trim_end()));
    }
}

#[test]
fn a_shell_that_is_not_known_is_bad_usage() {
    let said = ran(command().args(["completions", "ksh"]).output().unwrap());
    assert_eq!((said.status, said.out.as_str()), (Some(2), ""));
}
