//! Clears a folder of board files on all cores, under one raw table of 3168
//! bytes.
//!
//!     cargo run --release --offline -p lemoncolumn --example folder -- TABLE FOLDER
//!
//! Prints a line for each entry of the folder, in the order of their names: its
//! path, then what the program `clear` prints for this table and board, or `not
//! read` and why. Unlike the program it takes every k of a full file, up to 1024. The
//! last line sums up. Progress goes to standard error where that is a terminal.
//!
//! Exit status: 0 where every board is accepted; 1 where one is refused; 2 where
//! something could not be read, the table is refused, or the usage is wrong.

use std::collections::BTreeMap;
use std::error::Error;
use std::fs::{self, File};
use std::io::{self, IsTerminal, Read, Write};
use std::path::{Path, PathBuf};
use std::process::ExitCode;
use std::sync::atomic::{AtomicUsize, Ordering};
use std::sync::mpsc::{self, Receiver, Sender};
use std::time::{Duration, Instant};
use std::{env, fmt, thread};

use lemoncolumn::*;

type Table = [u64; TABLE_WORDS];

const LONGEST_BOARD: usize = file_bytes(MOST_FILE_BATCHES);
const BETWEEN_WRITES: Duration = Duration::from_millis(100);

/// What is said of one entry of the folder.
enum Answer {
    Accepted { k: usize, tests: u64 },
    Refused(Refusal),
    NotRead(io::Error),
}

impl fmt::Display for Answer {
    fn fmt(&self, out: &mut fmt::Formatter<'_>) -> fmt::Result {
        match self {
            Answer::Accepted { k, tests } => write!(out, "accepted {k} {tests}"),
            Answer::Refused(refusal) => write!(out, "{refusal}"),
            Answer::NotRead(error) => write!(out, "not read: {error}"),
        }
    }
}

/// The buffers of one thread, used again for each of its boards.
#[derive(Default)]
struct Room {
    file: Vec<u8>,
    taps: Vec<u64>,
    trace: Vec<u64>,
}

impl Room {
    fn answer(&mut self, table: &Table, path: &Path) -> Answer {
        match self.read(path) {
            Ok(()) => self.clear(table).unwrap_or_else(Answer::Refused),
            Err(error) => Answer::NotRead(error),
        }
    }

    /// Reads one byte more than the longest board at most: whatever follows, the
    /// refusal is the same. A pipe is not opened, since that could wait for ever.
    fn read(&mut self, path: &Path) -> io::Result<()> {
        if !fs::metadata(path)?.is_file() {
            return Err(io::Error::other("not a regular file"));
        }
        self.file.clear();
        let mut start = File::open(path)?.take(LONGEST_BOARD as u64 + 1);
        start.read_to_end(&mut self.file)?;
        Ok(())
    }

    /// Unpacks, builds, and checks against the claim, as the program does. The claim
    /// of a board is about all of its taps: c = k.
    fn clear(&mut self, table: &Table) -> Result<Answer, Refusal> {
        // Where no k has this length, unpack refuses it and looks at no destination.
        let k = batches(self.file.len()).unwrap_or(0);
        self.taps.resize(tap_words(k), 0);
        self.trace.resize(trace_words(k), 0);
        let claim = unpack(&self.file, &mut self.taps)?;
        build(table, &self.taps, &mut self.trace)?;
        let tests = check(table, &self.trace, claim, k)?;
        Ok(Answer::Accepted { k, tests })
    }
}

/// One thread: takes the next path that no thread has taken, until none is left
/// or nobody wants the answers any more.
fn work(table: &Table, paths: &[PathBuf], next: &AtomicUsize, answers: Sender<(usize, Answer)>) {
    let mut room = Room::default();
    loop {
        let number = next.fetch_add(1, Ordering::Relaxed);
        let Some(path) = paths.get(number) else {
            return;
        };
        if answers.send((number, room.answer(table, path))).is_err() {
            return;
        }
    }
}

/// Answers all paths on all cores, and prints the answers.
fn clear_all(table: &Table, paths: &[PathBuf]) -> io::Result<Counts> {
    let threads = thread::available_parallelism().map_or(1, usize::from);
    let next = AtomicUsize::new(0);
    let (sender, receiver) = mpsc::channel();
    thread::scope(|scope| {
        for _ in 0..threads.min(paths.len()) {
            let (next, sender) = (&next, sender.clone());
            scope.spawn(move || work(table, paths, next, sender));
        }
        drop(sender);
        print(paths, receiver)
    })
}

/// Prints the answers in the order of the paths, each when all before it have come.
fn print(paths: &[PathBuf], answers: Receiver<(usize, Answer)>) -> io::Result<Counts> {
    let mut screen = Screen::new(paths.len());
    let mut counts = Counts::default();
    let mut early = BTreeMap::new();
    for (number, answer) in answers {
        early.insert(number, answer);
        while let Some(answer) = early.remove(&counts.all()) {
            screen.add(&paths[counts.all()], &answer);
            counts.add(&answer);
        }
        screen.refresh(counts.all())?;
    }
    screen.write()?;
    Ok(counts)
}

/// Lines for standard output, and below them the progress on standard error.
struct Screen {
    lines: String,
    written: Instant,
    progress: bool,
    all: usize,
}

impl Screen {
    fn new(all: usize) -> Screen {
        Screen {
            lines: String::new(),
            written: Instant::now(),
            progress: io::stderr().is_terminal(),
            all,
        }
    }

    /// A line feed in a name would make two lines of one.
    fn add(&mut self, path: &Path, answer: &Answer) {
        let name = path.to_string_lossy().replace(char::is_control, "?");
        self.lines.push_str(&format!("{name}: {answer}\n"));
    }

    fn refresh(&mut self, done: usize) -> io::Result<()> {
        if self.written.elapsed() >= BETWEEN_WRITES {
            self.write()?;
            if self.progress {
                eprint!("{done} of {}", self.all);
            }
        }
        Ok(())
    }

    /// Writes the lines since the last time, in place of the progress: both may be
    /// on one terminal.
    fn write(&mut self) -> io::Result<()> {
        if self.progress {
            eprint!("\r\x1b[K");
        }
        let mut out = io::stdout().lock();
        out.write_all(self.lines.as_bytes())?;
        out.flush()?;
        self.lines.clear();
        self.written = Instant::now();
        Ok(())
    }
}

#[derive(Default)]
struct Counts {
    accepted: usize,
    refused: usize,
    not_read: usize,
}

impl Counts {
    fn add(&mut self, answer: &Answer) {
        match answer {
            Answer::Accepted { .. } => self.accepted += 1,
            Answer::Refused(_) => self.refused += 1,
            Answer::NotRead(_) => self.not_read += 1,
        }
    }

    fn all(&self) -> usize {
        self.accepted + self.refused + self.not_read
    }

    fn status(&self) -> u8 {
        match (self.not_read, self.refused) {
            (0, 0) => 0,
            (0, _) => 1,
            _ => 2,
        }
    }
}

impl fmt::Display for Counts {
    fn fmt(&self, out: &mut fmt::Formatter<'_>) -> fmt::Result {
        write!(out, "{} accepted, ", self.accepted)?;
        write!(out, "{} refused, ", self.refused)?;
        write!(out, "{} not read", self.not_read)
    }
}

fn read_table(path: &Path) -> Result<Table, Box<dyn Error>> {
    let mut table = [0; TABLE_WORDS];
    prepare(&raw_table(&fs::read(path)?)?, &mut table)?;
    Ok(table)
}

fn entries(folder: &Path) -> io::Result<Vec<PathBuf>> {
    let entries = fs::read_dir(folder)?.map(|entry| Ok(entry?.path()));
    let mut paths = entries.collect::<io::Result<Vec<_>>>()?;
    paths.sort();
    Ok(paths)
}

/// Clears the boards and sums up; answers the exit status.
fn clear_and_sum_up(table: &Table, paths: &[PathBuf]) -> io::Result<u8> {
    let start = Instant::now();
    let counts = clear_all(table, paths)?;
    let boards = counts.accepted + counts.refused;
    let speed = boards as f64 / start.elapsed().as_secs_f64();
    writeln!(io::stdout(), "{counts}; {speed:.0} boards a second")?;
    Ok(counts.status())
}

fn run(table: &Path, folder: &Path) -> Result<u8, String> {
    let prepared = read_table(table).map_err(|error| format!("{}: {error}", table.display()))?;
    let paths = entries(folder).map_err(|error| format!("{}: {error}", folder.display()))?;
    clear_and_sum_up(&prepared, &paths).map_err(|error| format!("standard output: {error}"))
}

fn main() -> ExitCode {
    let arguments: Vec<_> = env::args_os().skip(1).collect();
    let answer = match arguments.as_slice() {
        [table, folder] => run(table.as_ref(), folder.as_ref()),
        _ => Err("usage: folder TABLE FOLDER".to_string()),
    };
    ExitCode::from(answer.unwrap_or_else(|message| {
        eprintln!("{message}");
        2
    }))
}
