//! The command line.
use crate::formats::{self, Format};
use crate::given::{Dated, Names};
use crate::options::{ExpandOptions, InfoOptions, ViewOptions};
use crate::shard::{self, Shard};
use clap::{Arg, ArgGroup, Args, Parser, Subcommand};
use clap_complete::Shell;
use quayrudder::{Date, Form};
use std::path::PathBuf;

const STATUS: &str = "\
Exit status:
  0  yes, or done
  1  no, or not done: the sentence says why and what to do
  2  bad usage
  3  the machine failed: a file is missing or cannot be read, written or synced
  4  a frame, a ledger or a holding is refused or damaged";

/// Reads, holds, corrects and purges the X-ray frames of a cold archive
#[derive(Parser)]
#[command(name = "quayrudder", version, after_help = STATUS, subcommand_required = true, arg_required_else_help = true)]
pub struct Cli {
    /// Answer in JSON, one object a line
    #[arg(long, global = true)]
    pub json: bool,
    /// Wait so long for a holding that another process is at work on [default: 10 for whole folders and lists, else without end]
    #[arg(long, global = true, value_name = "SECONDS")]
    pub wait: Option<u32>,
    #[command(subcommand)]
    pub command: Command,
}

#[derive(Subcommand)]
pub enum Command {
    /// Say what frames, mar images and d*TREK images are: format, size, form, counts and end, or why they are refused
    #[command(
        mut_arg("names", images),
        after_help = "Examples:\n  quayrudder info lysozyme_01_0001.sfrm\n  \
                            quayrudder info --header --quick lysozyme_01_0001.sfrm\n  quayrudder info --below frames"
    )]
    Info(Info),
    /// Write the counts of a frame or image as .npy, .raw (32 bits, least significant byte first), .pgm (16 bits), .tif,
    /// .edf or .cbf (32 bits)
    #[command(
        mut_arg("names", images),
        after_help = "Examples:\n  quayrudder expand lysozyme_01_0001.sfrm -o counts.npy\n  \
                            quayrudder expand - -o - --as tif < lysozyme_01_0001.sfrm > counts.tif\n  \
                            quayrudder expand --below frames --as npy -o counts"
    )]
    Expand(Expand),
    /// Make a picture of a frame or image to look at
    #[command(
        mut_arg("names", images),
        after_help = "Examples:\n  quayrudder view lysozyme_01_0001.sfrm -o look.png --log\n  \
                            quayrudder view lysozyme_01_0001.sfrm -o spot.png --rows 90..110 --columns 240..260 --zoom 8 \
                            --colours viridis --scale\n  quayrudder view --below frames -o pictures --log"
    )]
    View(View),
    /// Write a frame of FORMAT 100 from a header, counts and a form
    #[command(
        after_help = "Example:\n  quayrudder write --header old.sfrm --pixels counts.npy --form 1+1 -o new.sfrm"
    )]
    Write(Write),
    /// Open frames: make NAME.held and an empty NAME.ledger of each
    #[command(
        mut_arg("names", frames),
        after_help = "Examples:\n  quayrudder open lysozyme_01_0001.sfrm --form 1+2 --room 4096 -o lyso1\n  \
                            quayrudder open --below frames --form 1+2 -o archive"
    )]
    Open(Open),
    /// Correct the count of one pixel of a holding, or those of a whole table; the last correction of a pixel decides
    #[command(after_help = "Examples:\n  quayrudder correct lyso1 5,17 300\n  quayrudder correct lyso1 2577 300\n  \
                            quayrudder correct --from bad_pixels.csv")]
    Correct(Correct),
    /// Amend the last line that stands, a correction: take it back and give its pixel another count, in one change
    #[command(after_help = "Example:\n  quayrudder amend lyso1 310")]
    Amend {
        /// The holding
        name: PathBuf,
        /// The count that the same pixel gets instead, 0 to 4294967295
        count: u32,
    },
    /// Keep holdings until this day, the last word; an earlier one than before needs --shorten
    #[command(
        mut_arg("names", holdings_and_day),
        override_usage = "quayrudder keep [OPTIONS] [NAME]... <YYYY-MM-DD>",
        after_help = "Examples:\n  quayrudder keep lyso1 2031-11-02\n  quayrudder keep lyso1 lyso2 2031-11-02\n  \
                      quayrudder keep lyso1 2029-01-01 --shorten\n  quayrudder keep --below archive 2031-11-02"
    )]
    Keep(Keep),
    /// Take back the last correction or keep date that stands, whoever made it
    #[command(
        mut_arg("names", holdings),
        after_help = "Examples:\n  quayrudder withdraw lyso1\n  quayrudder withdraw --names-from wrong.txt"
    )]
    Withdraw {
        #[command(flatten)]
        names: Names,
    },
    /// Compact the ledgers of holdings: withdrawals and the lines that they took back go, and NAME.compacted keeps the
    /// listing before
    #[command(
        mut_arg("names", holdings),
        after_help = "Examples:\n  quayrudder compact lyso1\n  quayrudder compact --below archive"
    )]
    Compact(Compact),
    /// List the ledgers of holdings
    #[command(
        mut_arg("names", holdings),
        after_help = "Examples:\n  quayrudder list lyso1\n  quayrudder list --below archive"
    )]
    List {
        #[command(flatten)]
        names: Names,
    },
    /// May a holding be purged on this day? Exit status 0 for yes, 1 for no
    #[command(after_help = "Example:\n  quayrudder may-purge lyso1 2031-11-03 && echo yes")]
    MayPurge {
        /// The holding
        name: PathBuf,
        /// The day to ask for
        #[arg(value_name = "YYYY-MM-DD", value_parser = parse_date)]
        day: Date,
    },
    /// Which ledger line decides whether a holding may be purged, or what the count of a pixel is? For a day the exit status is
    /// that of may-purge
    #[command(
        group(ArgGroup::new("asked").args(["day", "pixel"]).required(true)),
        override_usage = "quayrudder why [OPTIONS] <NAME> <--day <YYYY-MM-DD>|--pixel <PIXEL|ROW,COLUMN>>",
        after_help = "Examples:\n  quayrudder why lyso1 --day 2031-11-03\n  quayrudder why lyso1 --pixel 2577\n  \
                      quayrudder why lyso1 --pixel 5,17"
    )]
    Why(Why),
    /// Check that holdings are what their sums say and that held frames agree with their ledgers
    #[command(
        mut_arg("names", holdings_or_folders),
        after_help = "Examples:\n  quayrudder verify lyso1 lyso2\n  quayrudder verify archive\n  \
                            quayrudder verify archive --seal\n  \
                            quayrudder verify archive --shard 3/8 --json > night.3.json"
    )]
    Verify(Verify),
    /// Ask every ledger below a folder whether its holding may be purged; it goes only with --into or --delete
    #[command(after_help = "Examples:\n  quayrudder sweep archive --day 2031-11-03\n  \
                            quayrudder sweep archive --into bin\n  \
                            quayrudder sweep bin --delete --log purge.log\n  \
                            quayrudder sweep archive --shard 3/8 --json > night.3.json")]
    Sweep(Sweep),
    /// Make a page to look at of all holdings below a folder: what they hold, what is due, what was corrected and what is damaged
    #[command(after_help = "Examples:\n  quayrudder report archive -o report.html\n  \
                            quayrudder report archive --day 2031-11-03 --json > report.json")]
    Report(Report),
    /// Add up the totals of `sweep --json` or `verify --json` in shards, and say which shards are missing
    #[command(after_help = "Examples:\n  quayrudder total night.*.json\n  cat night.*.json | quayrudder total -")]
    Total {
        /// What the runs have written, `-` for standard input
        #[arg(required = true, value_name = "FILE")]
        files: Vec<PathBuf>,
    },
    /// Say what a shell needs to complete this command's words
    #[command(
        after_help = "Example:\n  quayrudder completions bash > ~/.local/share/bash-completion/completions/quayrudder"
    )]
    Completions {
        /// The shell
        shell: Shell,
    },
}

// What the names of each command are.
fn images(names: Arg) -> Arg {
    names.value_name("FRAME").help("The frames or images, as many as you like, - for standard input")
}

fn frames(names: Arg) -> Arg {
    names.value_name("FRAME").help("The frames, as many as you like, - for standard input")
}

fn holdings(names: Arg) -> Arg {
    names.help("The holdings, as many as you like")
}

fn holdings_and_day(names: Arg) -> Arg {
    names.help("The holdings, as many as you like, and last the day until which they must be kept")
}

fn holdings_or_folders(names: Arg) -> Arg {
    names.value_name("NAME|DIR").help("The holdings, or folders with holdings in them, as many as you like")
}

#[derive(Args)]
pub struct Info {
    #[command(flatten)]
    pub names: Names,
    #[command(flatten)]
    pub options: InfoOptions,
}

#[derive(Args)]
pub struct Expand {
    #[command(flatten)]
    pub names: Names,
    /// The file to write, - for standard output, whose ending says how: .npy, .raw, .pgm, .tif, .edf or .cbf; for several
    /// frames the folder for their files
    #[arg(short, long, value_name = "OUT")]
    pub output: PathBuf,
    #[command(flatten)]
    pub options: ExpandOptions,
}

#[derive(Args)]
pub struct View {
    #[command(flatten)]
    pub names: Names,
    /// The picture to write, a .png, - for standard output; for several frames the folder for their pictures
    #[arg(short, long, value_name = "OUT.png")]
    pub output: PathBuf,
    #[command(flatten)]
    pub options: ViewOptions,
}

#[derive(Args)]
pub struct Write {
    /// A file that starts with an accepted FORMAT 100 header: a frame will do; - for standard input
    #[arg(long, value_name = "FILE")]
    pub header: PathBuf,
    /// The counts: .npy of whole numbers, or .raw (32 bits, least significant byte first); - for standard input
    #[arg(long, value_name = "FILE")]
    pub pixels: PathBuf,
    /// The format of the counts, where the name does not end in it: npy or raw
    #[arg(long = "as", value_name = "FORMAT", value_parser = formats::parse)]
    pub format: Option<&'static Format>,
    /// Bytes per pixel, and +1 or +2 for the baseline subtracted with underflow entries of so many bytes
    #[arg(long, value_parser = parse_form)]
    pub form: Form,
    /// The frame to write, - for standard output
    #[arg(short, long, value_name = "OUT")]
    pub output: PathBuf,
    /// Replace the file where it exists
    #[arg(long)]
    pub force: bool,
}

#[derive(Args)]
pub struct Open {
    #[command(flatten)]
    pub names: Names,
    /// Bytes per pixel, and +1 or +2 for the baseline subtracted with underflow entries of so many bytes
    #[arg(long, value_parser = parse_form)]
    pub form: Form,
    /// Bytes for the frame to grow by, which saves copies later: a correction takes at most 48, and gets them anyway
    #[arg(long, value_name = "BYTES", default_value_t = 4096)]
    pub room: u32,
    /// The name of the holding; for several frames the folder for their holdings, named as the frames are
    #[arg(short, long, value_name = "NAME|DIR")]
    pub output: PathBuf,
}

#[derive(Args)]
pub struct Correct {
    /// The holding
    #[arg(required_unless_present = "from")]
    pub name: Option<PathBuf>,
    /// The pixel's number, from 0 row by row, or its ROW,COLUMN, both from 0
    #[arg(value_name = "PIXEL|ROW,COLUMN", value_parser = parse_place, required_unless_present = "from")]
    pub pixel: Option<Place>,
    /// The new count, 0 to 4294967295
    #[arg(required_unless_present = "from")]
    pub count: Option<u32>,
    /// Make the corrections of a table instead, - for standard input: CSV with a heading, or one JSON object a line, with
    /// holding, pixel or row and column, and count. Of several rows for one pixel the last decides
    #[arg(long, value_name = "FILE", conflicts_with_all = ["name", "pixel", "count"])]
    pub from: Option<PathBuf>,
}

#[derive(Args)]
pub struct Keep {
    #[command(flatten)]
    pub dated: Dated,
    /// Take a day before the one that stands, or before today
    #[arg(long)]
    pub shorten: bool,
}

#[derive(Args)]
pub struct Compact {
    #[command(flatten)]
    pub names: Names,
    /// Do not keep the listing before: what the lines were is then gone
    #[arg(long)]
    pub no_log: bool,
}

#[derive(Args)]
pub struct Why {
    /// The holding
    pub name: PathBuf,
    /// The day to ask for: may the holding be purged, and which keep line decides?
    #[arg(long, value_name = "YYYY-MM-DD", value_parser = parse_date)]
    pub day: Option<Date>,
    /// The pixel's number, for which only the ledger is read, or its ROW,COLUMN: which correction that stands set it last?
    #[arg(long, value_name = "PIXEL|ROW,COLUMN", value_parser = parse_place)]
    pub pixel: Option<Place>,
}

#[derive(Args)]
pub struct Verify {
    #[command(flatten)]
    pub names: Names,
    /// Make the sums of holdings that agree and have none
    #[arg(long)]
    pub seal: bool,
    /// Check only this part of what lies below the folders, the K-th of N [default: all of it]
    #[arg(long, value_name = "K/N", default_value = "1/1", hide_default_value = true, value_parser = shard::parse)]
    pub shard: Shard,
}

#[derive(Args)]
pub struct Sweep {
    /// The folder to walk
    #[arg(value_name = "DIR")]
    pub folder: PathBuf,
    /// The day to ask for, with --into or --delete none after today [default: today]
    #[arg(long, value_name = "YYYY-MM-DD", value_parser = parse_date)]
    pub day: Option<Date>,
    /// Move each holding that may be purged below this folder, on the same file system, asked again just before
    #[arg(long, value_name = "BIN", conflicts_with = "delete")]
    pub into: Option<PathBuf>,
    /// Delete each holding that may be purged, asked again just before
    #[arg(long)]
    pub delete: bool,
    /// The log of what went [default: DIR/quayrudder-purge.log, with --shard DIR/quayrudder-purge.K-of-N.log]
    #[arg(long, value_name = "FILE")]
    pub log: Option<PathBuf>,
    /// Ask only this part of the ledgers, the K-th of N [default: all of them]
    #[arg(long, value_name = "K/N", default_value = "1/1", hide_default_value = true, value_parser = shard::parse)]
    pub shard: Shard,
}

#[derive(Args)]
pub struct Report {
    /// The folder to walk
    #[arg(value_name = "DIR")]
    pub folder: PathBuf,
    /// The page to write, an .html, - for standard output; with --json it may be left out
    #[arg(short, long, value_name = "OUT.html")]
    pub output: Option<PathBuf>,
    /// The day for which the ledgers are asked whether their holdings may be purged [default: today]
    #[arg(long, value_name = "YYYY-MM-DD", value_parser = parse_date)]
    pub day: Option<Date>,
    /// Pictures of the first N holdings with corrections and of the first N others
    #[arg(long, value_name = "N", default_value_t = 500)]
    pub pictures: u32,
    /// Replace the file where it exists
    #[arg(long)]
    pub force: bool,
}

#[derive(Clone, Copy, Debug, PartialEq, Eq)]
pub enum Place {
    Pixel(u64),
    At { row: u64, column: u64 },
}

/// The fixed form of a date. Whether there is such a day is for the library to say.
pub fn parse_date(text: &str) -> Result<Date, String> {
    let shape: String = text.chars().map(|c| if c.is_ascii_digit() { '0' } else { c }).collect();
    if shape != "0000-00-00" {
        return Err("a date is written YYYY-MM-DD, for example 2031-11-02 for 2 November 2031".into());
    }
    let number = |from: usize, to: usize| text[from..to].parse().map_err(|_| "no number".to_string());
    Ok(Date { year: number(0, 4)?, month: number(5, 7)?, day: number(8, 10)? })
}

/// `2`, or `1+2`. Whether there is such a form is for the library to say.
pub fn parse_form(text: &str) -> Result<Form, String> {
    let (width, underflow) = text.split_once('+').unwrap_or((text, "0"));
    let number = |digits: &str| digits.parse().map_err(|_| "a form is written like 2 or 1+2".to_string());
    Ok(Form { width: number(width)?, underflow: number(underflow)? })
}

pub fn parse_place(text: &str) -> Result<Place, String> {
    let number = |digits: &str| digits.parse().map_err(|_| "a pixel is written like 2577 or, by row and column, 5,17");
    match text.split_once(',') {
        Some((row, column)) => Ok(Place::At { row: number(row)?, column: number(column)? }),
        None => Ok(Place::Pixel(number(text)?)),
    }
}
