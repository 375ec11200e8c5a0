//! Prints the spelling table, or writes the list of cases and what the crate answers.

use std::{env, fs, process};
use tokens::{cases, spellings};

const USAGE: &str = "usage: tokens spellings [--bare] | tokens cases INPUT-FILE EXPECTED-FILE";

fn main() {
    let words: Vec<String> = env::args().skip(1).collect();
    let words: Vec<&str> = words.iter().map(String::as_str).collect();
    match words[..] {
        ["spellings"] => print!("{}", spellings::named_table()),
        ["spellings", "--bare"] => print!("{}", spellings::bare_table()),
        ["cases", input, expected] => write_cases(input, expected),
        _ => fail(USAGE),
    }
}

fn write_cases(input: &str, expected: &str) {
    let (all, broken) = (cases::all(), cases::broken_values());
    write(input, cases::input_file(&all, &broken));
    write(expected, cases::expected_file(&all, &broken).into_bytes());
    eprintln!("{} cases", all.len() + broken.len());
}

fn write(path: &str, bytes: Vec<u8>) {
    if let Err(error) = fs::write(path, bytes) {
        fail(&format!("{path}: {error}"));
    }
}

fn fail(message: &str) -> ! {
    eprintln!("{message}");
    process::exit(2);
}
