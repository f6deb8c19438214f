//! The names that a command is given to work on, by the command line.
use crate::args::parse_date;
use clap::error::ErrorKind;
use clap::{ArgMatches, Args, Command, Error, FromArgMatches};
use quayrudder::Date;
use std::path::PathBuf;

/// Words, the names in a file, and what lies below folders.
#[derive(Args, Clone, Debug, Default)]
pub struct Names {
    /// The names, as many as you like
    #[arg(value_name = "NAME", required_unless_present_any = ["below", "names_from"])]
    pub names: Vec<PathBuf>,
    /// Also every frame or holding below this folder; may be given several times
    #[arg(long, value_name = "DIR")]
    pub below: Vec<PathBuf>,
    /// Also the names in this file, - for standard input: with NUL between them if there is any, else one a line
    #[arg(long, value_name = "FILE")]
    pub names_from: Option<PathBuf>,
}

impl Names {
    /// The only name, where one is given and no list and no folder.
    pub fn single(&self) -> Option<&PathBuf> {
        match &self.names[..] {
            [name] if !self.is_listed() => Some(name),
            _ => None,
        }
    }

    /// Do names come from a file or from folders?
    pub fn is_listed(&self) -> bool {
        !self.below.is_empty() || self.names_from.is_some()
    }
}

/// Names with a day as the last word. Options may stand between any two of the words, which two positional arguments of
/// the parser's would not allow.
pub struct Dated {
    pub names: Names,
    pub date: Date,
}

impl FromArgMatches for Dated {
    fn from_arg_matches(matches: &ArgMatches) -> Result<Dated, Error> {
        let mut names = Names::from_arg_matches(matches)?;
        let missing = |what: &str| Error::raw(ErrorKind::MissingRequiredArgument, format!("{what} is missing\n"));
        let last = names.names.pop().ok_or_else(|| missing("the day, YYYY-MM-DD, as the last word"))?;
        let date = parse_date(&last.to_string_lossy()).map_err(|why| {
            let said = format!("invalid value '{}' for '<YYYY-MM-DD>': {why}\n", last.display());
            Error::raw(ErrorKind::ValueValidation, said)
        })?;
        match names.names.is_empty() && !names.is_listed() {
            true => Err(missing("the name of the holding")),
            false => Ok(Dated { names, date }),
        }
    }

    fn update_from_arg_matches(&mut self, matches: &ArgMatches) -> Result<(), Error> {
        *self = Dated::from_arg_matches(matches)?;
        Ok(())
    }
}

impl Args for Dated {
    fn augment_args(command: Command) -> Command {
        Names::augment_args(command)
    }

    fn augment_args_for_update(command: Command) -> Command {
        Names::augment_args_for_update(command)
    }
}
