//! The program `cut` (request iii): texts on its standard input, and what it prints held to the rule of `reading`.

#[cfg(feature = "selftest")]
mod stand_in;

use crate::hex::hex;
use crate::lexemes::Texts;
use crate::trees::told;
use reading::cases;
use reading::printed::{printed, LONGEST, UNREADABLE};
use std::fmt;
use std::fs::{File, OpenOptions};
use std::io::{self, Write};
use std::process::{Command, Stdio};
use std::thread;
use tokens::random::Random;

/// What the longest texts are made of: many lexemes, one lexeme, nothing to read, and what cannot be read.
const ROWS: [&[u8]; 6] = [b",", b"a", b" \n", b"'", b"a, 1 ", b"''"];
/// What cannot be read as a text: a folder, and a file that is open only for writing.
const FOLDER: &str = "/";
const SINK: &str = "/dev/null";

/// What stands on standard input.
pub enum Input<'a> {
    Text(&'a [u8]),
    Folder,
    Sink,
}

/// What comes to standard output.
type Run<'a> = &'a dyn Fn(&Input) -> io::Result<Vec<u8>>;
type Checked = Result<(), String>;

/// What was compared without a difference.
#[derive(Default)]
pub struct Counts {
    texts: u64,
    too_long: u64,
    stopped: u64,
    lines: u64,
    unreadable: u64,
}

/// A program by its command line: the fixed list, the longest texts, so many random ones, and what cannot be read.
pub fn compare(program: &[String], count: u64, seed: u64) -> Result<Counts, String> {
    compare_with(&|input| run(program, input), count, seed)
}

/// The stand-in, on as many texts.
#[cfg(feature = "selftest")]
pub fn compare_stand_in(count: u64, seed: u64) -> Result<Counts, String> {
    compare_with(&stand_in::run, count, seed)
}

/// Whatever prints.
fn compare_with(run: Run, count: u64, seed: u64) -> Result<Counts, String> {
    let mut counts = Counts::default();
    for text in cases::all().iter().chain(&longest()) {
        counts.hold(run, text)?;
    }
    let texts = Texts::new();
    let mut random = Random::new(seed);
    for _ in 0..count {
        let (_, text) = texts.drawn(&mut random);
        counts.hold(run, &text)?;
    }
    counts.hold_unreadable(run, Input::Folder)?;
    counts.hold_unreadable(run, Input::Sink)?;
    Ok(counts)
}

/// The longest texts that are cut, those one byte shorter, and those one byte longer.
fn longest() -> Vec<Vec<u8>> {
    let lengths = [LONGEST - 1, LONGEST, LONGEST + 1];
    let of = |row: &&[u8]| {
        let bytes = row.iter().copied().cycle();
        lengths.map(|length| bytes.clone().take(length).collect())
    };
    ROWS.iter().flat_map(of).collect()
}

/// What the program prints. A part of its input is written while it runs, for it may print before it has read all.
fn run(program: &[String], input: &Input) -> io::Result<Vec<u8>> {
    let mut command = Command::new(&program[0]);
    command.args(&program[1..]).stdout(Stdio::piped());
    let text = match input {
        Input::Text(text) => text,
        Input::Folder => return output(command.stdin(File::open(FOLDER)?)),
        Input::Sink => return output(command.stdin(OpenOptions::new().write(true).open(SINK)?)),
    };
    let mut child = command.stdin(Stdio::piped()).spawn()?;
    let mut stdin = child.stdin.take().expect("a pipe");
    thread::scope(|scope| {
        // A program that has seen enough may close its input.
        scope.spawn(move || stdin.write_all(text));
        Ok(child.wait_with_output()?.stdout)
    })
}

/// What a command prints to its end.
fn output(command: &mut Command) -> io::Result<Vec<u8>> {
    Ok(command.output()?.stdout)
}

impl Counts {
    /// One text through the program.
    fn hold(&mut self, run: Run, text: &[u8]) -> Checked {
        let due = printed(text);
        held(run, Input::Text(text), &due)?;
        self.texts += 1;
        self.too_long += u64::from(text.len() > LONGEST);
        self.stopped += u64::from(due.contains("stop"));
        self.lines += due.lines().count() as u64;
        Ok(())
    }

    /// What cannot be read.
    fn hold_unreadable(&mut self, run: Run, input: Input) -> Checked {
        held(run, input, UNREADABLE)?;
        self.unreadable += 1;
        Ok(())
    }
}

/// The program prints this, to the byte.
fn held(run: Run, input: Input, due: &str) -> Checked {
    let observed = run(&input).map_err(|error| format!("the program: {error}"))?;
    match observed == due.as_bytes() {
        true => Ok(()),
        false => Err(difference(&input, due, &observed)),
    }
}

/// The first line that differs, with the input.
fn difference(input: &Input, due: &str, observed: &[u8]) -> String {
    let input = match input {
        Input::Text(text) => format!("text {}", hex(text)),
        Input::Folder => format!("the folder {FOLDER}"),
        Input::Sink => format!("{SINK}, open only for writing"),
    };
    let observed = String::from_utf8_lossy(observed);
    let mut pairs = due.split('\n').zip(observed.split('\n'));
    let same = pairs.by_ref().take_while(|(due, seen)| due == seen).count();
    let line = |lines: &str| lines.split('\n').nth(same).map(str::to_string);
    let (due, seen) = (line(due), line(&observed));
    format!("difference in line {same} of cut: expected {due:?}, observed {seen:?}\n{input}")
}

impl fmt::Display for Counts {
    fn fmt(&self, f: &mut fmt::Formatter<'_>) -> fmt::Result {
        let [texts, too_long, stopped, lines, unreadable] = [
            self.texts,
            self.too_long,
            self.stopped,
            self.lines,
            self.unreadable,
        ]
        .map(told);
        write!(f, "texts: {texts}, {too_long} of them too long, {stopped} to a failure; lines: {lines}; unreadable: {unreadable}")
    }
}
