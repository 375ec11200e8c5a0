//! Instructions of one pass, counted by callgrind.

use crate::cut::{self, READERS};
use crate::inputs;
use crate::jobs::{Batch, WAYS};
use crate::subject::{Room, Subject, APPENDS, TEXTS};
use std::hint::black_box;
use std::process::Command;
use std::{env, io};

/// The word before callgrind's count.
const COUNT: &str = "Collected :";
/// The word for the schema as jobs, in the place of an input.
const JOBS: &str = "jobs";
/// What stands before the place of a text that is cut, in the place of an input.
const CUT: &str = "cut";

/// Of one input and subject by their places, in a run of this program under callgrind; none where that cannot be run.
pub fn instructions(input: usize, subject: Subject) -> Option<u64> {
    under_callgrind(&input.to_string(), place_of(subject))
}

/// Of the schema as jobs, in the way at a place.
pub fn instructions_of_jobs(way: usize) -> Option<u64> {
    under_callgrind(JOBS, way)
}

/// Of the text at a place, cut by the reader at a place.
pub fn instructions_of_cut(text: usize, reader: usize) -> Option<u64> {
    under_callgrind(&format!("{CUT}{text}"), reader)
}

fn under_callgrind(input: &str, subject: usize) -> Option<u64> {
    let program = env::current_exe().ok()?;
    let output = Command::new("valgrind")
        .args(["--tool=callgrind", "--callgrind-out-file=/dev/null"])
        .arg("--toggle-collect=*counted*")
        .arg(program)
        .args(["once", input, &subject.to_string()])
        .output()
        .ok()?;
    collected(&String::from_utf8_lossy(&output.stderr))
}

fn collected(told: &str) -> Option<u64> {
    let (_, count) = told.split_once(COUNT)?;
    count.split_whitespace().next()?.parse().ok()
}

fn subjects() -> impl Iterator<Item = Subject> {
    TEXTS.into_iter().chain(APPENDS)
}

fn place_of(subject: Subject) -> usize {
    let place = subjects().position(|other| other == subject);
    place.expect("a subject of the list")
}

/// What is run under callgrind: one pass.
pub fn once(input: &str, subject: &str) -> io::Result<()> {
    let number = |word: &str| word.parse::<usize>().map_err(io::Error::other);
    if input == JOBS {
        return once_as_jobs(number(subject)?);
    }
    if let Some(text) = input.strip_prefix(CUT) {
        return once_cut(number(text)?, number(subject)?);
    }
    let (input, subject) = (number(input)?, number(subject)?);
    let input = inputs::usual().into_iter().nth(input);
    let (Some(input), Some(subject)) = (input, subjects().nth(subject)) else {
        return Err(io::Error::other("no such input or subject"));
    };
    let mut room = Room::new(&input);
    counted(&mut || room.pass(subject, &input));
    Ok(())
}

fn once_as_jobs(way: usize) -> io::Result<()> {
    let Some(&way) = WAYS.get(way) else {
        return Err(io::Error::other("no such way"));
    };
    let mut batch = Batch::of_schema();
    counted(&mut || batch.pass(way));
    Ok(())
}

/// One text, cut once.
fn once_cut(text: usize, reader: usize) -> io::Result<()> {
    let text = cut::texts().into_iter().nth(text);
    let (Some(text), Some(&reader)) = (text, READERS.get(reader)) else {
        return Err(io::Error::other("no such text or reader"));
    };
    counted(&mut || text.pass(reader));
    Ok(())
}

/// What callgrind counts, by its name.
#[inline(never)]
fn counted(pass: &mut dyn FnMut() -> usize) {
    black_box(pass());
}
