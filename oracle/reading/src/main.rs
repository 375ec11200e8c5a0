//! Tries the reading rule, on the crate's texts and beside other readers.

use reading::streams::{self, Counts};
use reading::{broken, cases, faults, short, sqlite};
use std::{env, process};
use tokens::judge::text_of;

const USAGE: &str = "usage: reading streams COUNT SEED
       reading short
       reading broken
       reading faults
       reading cases INPUT-FILE EXPECTED-FILE
       reading sqlite PROGRAM";

/// Ends with status 0 if all is as it should be, 1 if not, 2 if the call is wrong.
fn main() {
    let words: Vec<String> = env::args().skip(1).collect();
    let words: Vec<&str> = words.iter().map(String::as_str).collect();
    let passed = match words[..] {
        ["streams", count, seed] => told(compare_streams(number(count), number(seed))),
        ["short"] => told(short::compare()),
        ["broken"] => broken::try_all(),
        ["faults"] => faults::try_all(),
        ["cases", input, expected] => write_cases(input, expected),
        ["sqlite", program] => compare_sqlite(program),
        _ => fail(USAGE),
    };
    process::exit(if passed { 0 } else { 1 });
}

/// With texts that the crate writes.
fn compare_streams(count: u64, seed: u64) -> Result<Counts, String> {
    streams::compare(count, seed, &|tokens| Ok(text_of(tokens).into_bytes()))
}

/// Prints the counts, or the difference.
fn told(compared: Result<Counts, String>) -> bool {
    match compared {
        Ok(counts) => println!("{counts}\n0 differences"),
        Err(difference) => {
            println!("{difference}");
            return false;
        }
    }
    true
}

/// The fixed list of the gate.
fn write_cases(input: &str, expected: &str) -> bool {
    cases::write(input, expected).unwrap_or_else(|error| fail(&error.to_string()));
    true
}

/// Whatever the shell accepts, nothing fails on it.
fn compare_sqlite(program: &str) -> bool {
    sqlite::compare(program).unwrap_or_else(|error| fail(&format!("{program}: {error}")));
    true
}

/// The number that a word of the call gives.
fn number(word: &str) -> u64 {
    word.parse().unwrap_or_else(|_| fail(USAGE))
}

/// Tells what is wrong with the call.
fn fail(message: &str) -> ! {
    eprintln!("{message}");
    process::exit(2);
}
