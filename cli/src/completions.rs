//! What a shell needs to complete the command's words, made from the command line's own description.
use crate::args::Cli;
use crate::failure::Outcome;
use crate::output::Output;
use clap::CommandFactory;
use clap_complete::{generate, Shell};
use serde_json::json;

pub fn completions(output: &mut Output, shell: Shell) -> Outcome<()> {
    let mut script = Vec::new();
    generate(shell, &mut Cli::command(), "quayrudder", &mut script);
    let text = String::from_utf8_lossy(&script);
    output.say(&text, &json!({"shell": shell.to_string(), "script": text}))
}
