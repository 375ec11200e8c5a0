//! Compares the library's calls with the crate and with the rules of their refusals.

mod call;
mod crash;
mod cut;
mod drawn;
mod editions;
mod encoding;
#[cfg(feature = "selftest")]
mod faults;
mod fuzz;
mod guarded;
mod hex;
mod jobs;
mod lexemes;
mod named;
mod numbers;
mod pages;
mod profile;
mod readable;
mod refusals;
mod report;
mod rules;
mod sources;
mod sqlite;
#[cfg(feature = "selftest")]
mod stand_in;
mod streams;
mod trees;

use report::{Counts, Difference};
use std::fmt::Display;
use std::{env, process};
use tokens::random::Random;

const USAGE: &str = "usage: compare [TOKENS [REFUSED-CALLS [SEED]]]
       compare trees COUNT SEED
       compare numbers COUNT SEED
       compare encoding COUNT SEED
       compare sources COUNT SEED
       compare editions COUNT SEED
       compare named COUNT SEED
       compare jobs COUNT SEED
       compare profile COUNT SEED
       compare lexemes COUNT SEED
       compare cut COUNT SEED PROGRAM [ARGUMENT..]
       compare sqlite COUNT SEED
       compare reading COUNT SEED
       compare fuzz CALLS SEED";
const DEFAULT_CALLS: u64 = 1_000_000;
const DEFAULT_SEED: u64 = 1;

/// How much to try.
pub struct Extent {
    tokens: u64,
    refused: u64,
    seed: u64,
}

fn main() {
    let words: Vec<String> = env::args().skip(1).collect();
    #[cfg(feature = "selftest")]
    try_faults(&words);
    let told = match words.first().map(String::as_str) {
        Some("trees") => compare_random(&words[1..], &trees::compare),
        Some("numbers") => compare_random(&words[1..], &numbers::compare),
        Some("encoding") => compare_random(&words[1..], &encoding::compare),
        Some("sources") => compare_random(&words[1..], &sources::compare),
        Some("editions") => compare_random(&words[1..], &editions::compare),
        Some("named") => compare_random(&words[1..], &named::compare),
        Some("jobs") => compare_random(&words[1..], &jobs::compare),
        Some("profile") => compare_random(&words[1..], &profile::compare),
        Some("lexemes") => compare_random(&words[1..], &lexemes::compare),
        Some("cut") => compare_cut(&words[1..]),
        Some("sqlite") => compare_random(&words[1..], &sqlite::compare),
        Some("reading") => compare_random(&words[1..], &readable::compare),
        Some("fuzz") => compare_random(&words[1..], &fuzz::compare),
        _ => {
            let extent = extent(&words).unwrap_or_else(|| fail());
            compare_all(&extent, true).map_err(|difference| difference.to_string())
        }
    };
    match told {
        Ok(()) => println!("0 differences"),
        Err(difference) => {
            println!("{difference}");
            process::exit(1);
        }
    }
}

fn fail() -> ! {
    eprintln!("{USAGE}");
    process::exit(2);
}

/// A comparison of so many random cases from a seed: prints its counts, or gives the difference.
fn compare_random<C: Display, D: Display>(
    words: &[String],
    compare: &dyn Fn(u64, u64) -> Result<C, D>,
) -> Result<(), String> {
    let number = |word: &String| word.parse().unwrap_or_else(|_| fail());
    let [count, seed] = words else { fail() };
    let counts = compare(number(count), number(seed));
    let counts = counts.map_err(|difference| difference.to_string())?;
    println!("{counts}");
    Ok(())
}

/// The program that a command line names, on so many random texts.
fn compare_cut(words: &[String]) -> Result<(), String> {
    let [_, _, _, ..] = words else { fail() };
    let (extent, program) = words.split_at(2);
    compare_random(extent, &|count, seed| cut::compare(program, count, seed))
}

/// `faults` tries every planted fault, `faults whole` tells each difference whole.
#[cfg(feature = "selftest")]
fn try_faults(words: &[String]) {
    if words.first().is_some_and(|word| word == "faults") {
        let all_found = faults::try_all(words.len() > 1);
        process::exit(if all_found { 0 } else { 1 });
    }
}

fn extent(words: &[String]) -> Option<Extent> {
    let number = |place: usize, default: u64| match words.get(place) {
        Some(word) => word.parse().ok(),
        None => Some(default),
    };
    if words.len() > 3 {
        return None;
    }
    Some(Extent {
        tokens: number(0, DEFAULT_CALLS)?,
        refused: number(1, DEFAULT_CALLS)?,
        seed: number(2, DEFAULT_SEED)?,
    })
}

/// Append: streams, then refused calls.
pub fn compare_all(extent: &Extent, print: bool) -> Result<(), Box<Difference>> {
    let mut random = Random::new(extent.seed);
    let mut appended = Counts::default();
    streams::compare(extent.tokens, &mut random, &mut appended)?;
    if print {
        println!("tokens of streams: {}\n{appended}", appended.total());
    }
    let mut refused = Counts::default();
    refusals::compare(extent.refused, &mut random, &mut refused)?;
    if print {
        println!("refused and damaged calls: {}\n{refused}", refused.total());
    }
    Ok(())
}
