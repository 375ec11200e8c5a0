//! Writes cases and the model's answers, judges answers, tells what the good trees hold.

use model::jobs::listed;
use model::profile;
use model::samples::Judged;
use model::{files, fixed, judge, row, tally, texts};
use std::io::{self, BufReader, BufWriter, Write};
use std::{env, fs, process};

const USAGE: &str = "usage: model cases COUNT SEED INPUT-FILE EXPECTED-FILE
       model stream COUNT SEED
       model answer
       model judge COUNT SEED
       model kinds COUNT SEED
       model texts INPUT-FILE EXPECTED-FILE
       model jobs INPUT-FILE EXPECTED-FILE
       model profile INPUT-FILE EXPECTED-FILE";

fn main() {
    let words: Vec<String> = env::args().skip(1).collect();
    let words: Vec<&str> = words.iter().map(String::as_str).collect();
    let done = match words[..] {
        ["cases", count, seed, input, expected] => {
            write_cases(number(count), number(seed), input, expected)
        }
        ["stream", count, seed] => stream(number(count), number(seed)),
        ["answer"] => answer(),
        ["judge", count, seed] => judge_answers(number(count), number(seed)),
        ["kinds", count, seed] => kinds(number(count), number(seed)),
        ["texts", input, expected] => write_texts(input, expected),
        ["jobs", input, expected] => write_jobs(input, expected),
        ["profile", input, expected] => write_profile(input, expected),
        _ => fail(USAGE),
    };
    done.unwrap_or_else(|error| fail(&error.to_string()));
}

fn number<T: std::str::FromStr>(word: &str) -> T {
    word.parse().unwrap_or_else(|_| fail(USAGE))
}

fn write_cases(count: usize, seed: u64, input: &str, expected: &str) -> io::Result<()> {
    let cases = fixed::all(count, seed);
    write_lines(&cases, files::write_case, files::answer, input, expected)
}

fn write_texts(input: &str, expected: &str) -> io::Result<()> {
    let write = |out: &mut Vec<u8>, judged: &Judged| files::write_case(out, &judged.case);
    write_lines(&texts::all(), write, texts::line, input, expected)
}

fn write_jobs(input: &str, expected: &str) -> io::Result<()> {
    write_lines(&listed::all(), listed::write, listed::line, input, expected)
}

fn write_profile(input: &str, expected: &str) -> io::Result<()> {
    let write = |out: &mut Vec<u8>, judged: &Judged| files::write_case(out, &judged.case);
    let line = profile::listed::line;
    write_lines(&profile::listed::all(), write, line, input, expected)
}

/// Cases, and a line for each.
fn write_lines<C>(
    cases: &[C],
    write: impl Fn(&mut Vec<u8>, &C) -> io::Result<()>,
    line: impl Fn(&C) -> String,
    input: &str,
    expected: &str,
) -> io::Result<()> {
    let mut bytes = Vec::new();
    let mut lines = String::new();
    for case in cases {
        write(&mut bytes, case)?;
        lines += &format!("{}\n", line(case));
    }
    fs::write(input, &bytes)?;
    fs::write(expected, lines)?;
    eprintln!("{} cases, {} bytes", cases.len(), bytes.len());
    Ok(())
}

fn stream(count: usize, seed: u64) -> io::Result<()> {
    let mut out = BufWriter::new(io::stdout().lock());
    for (_, case) in row::with_options(seed).take(count) {
        files::write_case(&mut out, &case)?;
    }
    out.flush()
}

/// The model as the one who answers: cases in, lines out.
fn answer() -> io::Result<()> {
    let mut input = BufReader::new(io::stdin().lock());
    let mut out = BufWriter::new(io::stdout().lock());
    while let Some(case) = files::read_case(&mut input)? {
        writeln!(out, "{}", files::answer(&case))?;
    }
    out.flush()
}

fn judge_answers(count: usize, seed: u64) -> io::Result<()> {
    match judge::judge(count, seed, io::stdin().lock()) {
        Ok(counts) => println!("{counts}0 differences"),
        Err(difference) => {
            print!("{difference}");
            process::exit(1);
        }
    }
    Ok(())
}

fn kinds(count: usize, seed: u64) -> io::Result<()> {
    let tally = tally::tally(count, seed);
    print!("{}", tally.report());
    for (kind, what) in tally.surplus() {
        println!("not in the table: {kind} {what}");
    }
    Ok(())
}

fn fail(message: &str) -> ! {
    eprintln!("{message}");
    process::exit(2);
}
