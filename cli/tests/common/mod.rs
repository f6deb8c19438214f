//! What the tests share: a folder of their own, the real command run in it, and frames made by hand.
#![allow(dead_code)]
pub mod header;
pub mod random;

use chrono::NaiveDate;
use header::Header;
use std::collections::BTreeSet;
use std::fs;
use std::io::Write;
use std::path::{Path, PathBuf};
use std::process::{Command, Output, Stdio};
use std::sync::OnceLock;
use tempfile::TempDir;

/// The day on which the command runs where none is named.
pub const TODAY: &str = "2026-11-16";

/// The day on which a holding kept until 2031-11-02 may go.
pub const DUE: &str = "2031-11-03";

/// The refusals of what is asked for. The others say that a frame, a ledger or a holding is not what it must be.
const ASKED_FOR: [u32; 12] = [10, 16, 17, 18, 21, 22, 24, 25, 26, 27, 31, 37];

pub struct Folder(TempDir);

/// What a run of the command gave.
#[derive(Debug)]
pub struct Ran {
    pub status: Option<i32>,
    pub out: String,
    pub err: String,
}

/// In memory where there is such a folder: what reaches the disk is for the order of calls to show.
pub fn folder() -> Folder {
    let memory = Path::new("/dev/shm");
    let parent = if memory.is_dir() { memory.to_path_buf() } else { std::env::temp_dir() };
    Folder(tempfile::Builder::new().prefix("quayrudder-").tempdir_in(parent).unwrap())
}

/// The real command on a fixed day.
pub fn command() -> Command {
    command_on(TODAY)
}

/// The real command at noon of this day, by the universal time.
pub fn command_on(day: &str) -> Command {
    let noon = NaiveDate::parse_from_str(day, "%Y-%m-%d").unwrap().and_hms_opt(12, 0, 0).unwrap();
    let mut run = Command::new(env!("CARGO_BIN_EXE_quayrudder"));
    run.env("LD_PRELOAD", fault_library()).env("FAULT_CLOCK", noon.timestamp().to_string());
    run
}

/// The library that is preloaded into the command, built once.
fn fault_library() -> &'static Path {
    static BUILT: OnceLock<PathBuf> = OnceLock::new();
    BUILT.get_or_init(|| {
        let folder = Path::new(env!("CARGO_TARGET_TMPDIR"));
        let fresh = folder.join(format!("fault-{}.so", std::process::id()));
        let source = concat!(env!("CARGO_MANIFEST_DIR"), "/tests/fault.c");
        let status = Command::new("cc").args(["-O1", "-shared", "-fPIC", source, "-ldl", "-o"]).arg(&fresh).status();
        assert!(status.unwrap().success());
        let library = folder.join("fault.so");
        fs::rename(fresh, &library).unwrap();
        library
    })
}

pub fn ran(output: Output) -> Ran {
    let text = |bytes: Vec<u8>| String::from_utf8(bytes).unwrap();
    Ran { status: output.status.code(), out: text(output.stdout), err: text(output.stderr) }
}

/// A run in which call `at` meets a fault. None where there is no such call, and then the run must have been accepted.
pub fn faulty(f: &Folder, mut run: Command, fault: &str, at: u32) -> Option<Ran> {
    let mark = f.join("mark");
    let _ = fs::remove_file(&mark);
    run.env("FAULT", fault).env("FAULT_AT", at.to_string()).env("FAULT_MARK", &mark);
    let ran = ran(run.output().unwrap());
    if mark.exists() {
        return Some(ran);
    }
    assert_eq!(ran.status, Some(0), "{run:?}: {ran:?}");
    None
}

/// Kills the command after each of these calls in turn: one thing after the other up to the last, and then on all cores.
pub fn killed_in_turn(f: &Folder, words: &str, calls: &[&str]) {
    for (number, call) in calls.iter().enumerate() {
        let mut run = command();
        run.args(words.split(' ')).current_dir(f.path()).env("FAULT", "after").env("FAULT_AT", call);
        if number + 1 < calls.len() {
            run.env("RAYON_NUM_THREADS", "1");
        }
        assert_eq!(ran(run.output().unwrap()).status, None, "{words}: {call}");
    }
}

/// The files of a holding that last.
pub const ENDINGS: [&str; 4] = ["held", "ledger", "sha256", "compacted"];

/// The bytes of these files, where they exist.
pub type State = [Option<Vec<u8>>; 4];

pub fn state_of(f: &Folder, name: &str) -> State {
    ENDINGS.map(|ending| fs::read(f.join(&format!("{name}.{ending}"))).ok())
}

impl Folder {
    pub fn path(&self) -> &Path {
        self.0.path()
    }

    pub fn join(&self, name: &str) -> PathBuf {
        self.path().join(name)
    }

    pub fn put(&self, name: &str, bytes: impl AsRef<[u8]>) {
        fs::write(self.join(name), bytes).unwrap();
    }

    /// The same for a file in a folder of its own.
    pub fn put_below(&self, name: &str, bytes: impl AsRef<[u8]>) {
        fs::create_dir_all(self.join(name).parent().unwrap()).unwrap();
        self.put(name, bytes);
    }

    pub fn get(&self, name: &str) -> Vec<u8> {
        fs::read(self.join(name)).unwrap()
    }

    pub fn has(&self, name: &str) -> bool {
        self.join(name).exists()
    }

    /// Runs the command with these words, in this folder.
    pub fn run(&self, words: &str) -> Ran {
        ran(command().args(words.split(' ')).current_dir(self.path()).output().unwrap())
    }

    /// The same with this on standard input.
    pub fn run_with(&self, words: &str, input: &[u8]) -> Ran {
        let mut run = command();
        run.args(words.split(' ')).current_dir(self.path()).stdin(Stdio::piped());
        let mut child = run.stdout(Stdio::piped()).stderr(Stdio::piped()).spawn().unwrap();
        // A command that declines has no use for its input.
        let _ = child.stdin.take().unwrap().write_all(input);
        ran(child.wait_with_output().unwrap())
    }

    /// The same on another day.
    pub fn run_on(&self, day: &str, words: &str) -> Ran {
        ran(command_on(day).args(words.split(' ')).current_dir(self.path()).output().unwrap())
    }

    /// The names of all that lies in this folder.
    pub fn names(&self) -> BTreeSet<String> {
        let entries = fs::read_dir(self.path()).unwrap();
        entries.map(|entry| entry.unwrap().file_name().to_string_lossy().into_owned()).collect()
    }

    /// Puts the files of a holding here as they were.
    pub fn put_state(&self, name: &str, state: &State) {
        let files = ENDINGS.iter().zip(state).filter_map(|(ending, bytes)| Some((ending, bytes.as_ref()?)));
        files.for_each(|(ending, bytes)| self.put(&format!("{name}.{ending}"), bytes));
    }

    /// A holding from before there were sums.
    pub fn without_sums(&self, name: &str) {
        let _ = fs::remove_file(self.join(&format!("{name}.sha256")));
    }

    /// Runs the command, which must do what it is asked, and gives what it says.
    pub fn done(&self, words: &str) -> String {
        let ran = self.run(words);
        assert_eq!((ran.status, ran.err.as_str()), (Some(0), ""), "{words}");
        ran.out
    }

    /// Runs the command, which must be refused with this number, and gives its sentence.
    pub fn refused(&self, words: &str, number: u32) -> String {
        let ran = self.run(words);
        let start = format!("refusal {number}: ");
        let status = if ASKED_FOR.contains(&number) { 1 } else { 4 };
        assert!(ran.status == Some(status) && ran.out.is_empty() && ran.err.contains(&start), "{words}: {ran:?}");
        ran.err
    }

    /// Is everything what this sums file says, by Debian's own program?
    pub fn sums_hold(&self, name: &str) -> bool {
        let (path, mut sums) = (self.join(name), Command::new("sha256sum"));
        let folder = path.parent().unwrap();
        sums.args(["--check", "--strict", "--quiet"]).arg(&path).current_dir(folder).status().unwrap().success()
    }

    /// Makes a frame of 4 rows of 4 pixels, 60 to 75, and the holding `a` of it, with this much room.
    pub fn hold(&self, form: &str, room: u32) {
        self.put("a.sfrm", plain_frame());
        self.done(&format!("open a.sfrm --form {form} --room {room} -o a"));
    }
}

/// 4 rows of 4 pixels of one byte, 60 to 75.
pub fn plain_frame() -> Vec<u8> {
    frame(Header::new(4, 4), &(60..76).collect::<Vec<u8>>())
}

pub fn frame(header: Header, rest: &[u8]) -> Vec<u8> {
    [header.bytes(), rest.to_vec()].concat()
}

/// A frame of these counts, four bytes each.
pub fn wide_frame(rows: u32, columns: u32, counts: &[u32]) -> Vec<u8> {
    frame(Header::new(rows, columns).line(39, "NPIXELB:4 0"), &raw(counts))
}

/// Counts as `expand` writes them as .raw.
pub fn raw(counts: &[u32]) -> Vec<u8> {
    counts.iter().flat_map(|count| count.to_le_bytes()).collect()
}

/// The counts of such bytes.
pub fn unraw(bytes: &[u8]) -> Vec<u32> {
    bytes.chunks_exact(4).map(|count| u32::from_le_bytes(count.try_into().unwrap())).collect()
}

/// One row with entries in every table, which reads as 35 332 70032 30.
pub fn tables_frame() -> Vec<u8> {
    let header = Header::new(1, 4).line(20, "NOVERFL:1 2 1").line(39, "NPIXELB:1 1");
    let padded = |entries: &[u8]| {
        let mut table = entries.to_vec();
        table.resize(16, 0);
        table
    };
    let two = padded(&[300u16.to_le_bytes(), 65535u16.to_le_bytes()].concat());
    let four = padded(&70000u32.to_le_bytes());
    frame(header, &[vec![3, 255, 255, 0], padded(&[30]), two, four].concat())
}

/// FORMAT 86: one row of four pixels, of which pixel 1 is 300, with the entry given.
pub fn old_frame(entry: &str) -> Vec<u8> {
    let header = Header::new(1, 4).line(0, "FORMAT :86").line(20, "NOVERFL:1").line(39, "NPIXELB:1");
    let mut table = entry.as_bytes().to_vec();
    table.resize(512, b' ');
    frame(header, &[vec![3, 255, 5, 6], table].concat())
}

pub const OLD_ENTRY: &str = "      300      1";

/// `open` and `write` refuse an image and one cut short as no Bruker frame, and say what it is.
pub fn only_read(image: &[u8], short: &[u8], format: &str) {
    let f = folder();
    f.put("a.image", image);
    f.put("short.image", short);
    f.put("a.raw", [0; 4]);
    let hint = format!("this is a {format} image, which only `info`, `view` and `expand` take");
    let open = |file: &str| format!("open {file} --form 1 -o a");
    let write = "write --header a.image --pixels a.raw --form 1 -o out";
    for (words, number) in [(open("a.image"), 2), (open("short.image"), 1), (write.to_string(), 2)] {
        let said = f.refused(&words, number);
        assert!(said.contains(&hint), "{said}");
    }
    assert!(!f.has("a.held") && !f.has("out"));
}
