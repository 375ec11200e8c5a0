//! Holds what the entries of the grammar's definition write to what the crate writes, and in the SQLite edition to what the model
//! makes of it.

mod plant;

use entries::interpret::{corners, node, Node};
use entries::{places, written, Grammar, GRAMMAR_FILES, SPELLING_FILES};
use model::files::hex;
use model::samples::{sample_in_any, Sample};
use std::collections::BTreeMap;
use std::path::{Path, PathBuf};
use std::{env, fs, process};
use tokens::judge::text_of;
use tokens::random::Random;

const USAGE: &str = "usage: entries COUNT SEED GRAMMAR-FOLDER SPELLING-FOLDER
       entries faults COUNT SEED GRAMMAR-FOLDER SPELLING-FOLDER";

fn main() {
    let words: Vec<String> = env::args().skip(1).collect();
    let words: Vec<&str> = words.iter().map(String::as_str).collect();
    let done = match words[..] {
        ["faults", count, seed, grammar, spelling] => read(grammar, spelling)
            .and_then(|grammar| plant::plant(grammar, number(count), number(seed))),
        [count, seed, grammar, spelling] => read(grammar, spelling)
            .and_then(|grammar| compare(&grammar, number(count), number(seed))),
        _ => fail(USAGE, 2),
    };
    done.unwrap_or_else(|error| fail(&error, 1));
}

fn number<T: std::str::FromStr>(word: &str) -> T {
    word.parse().unwrap_or_else(|_| fail(USAGE, 2))
}

fn fail(message: &str, status: i32) -> ! {
    eprintln!("{message}");
    process::exit(status);
}

fn read(grammar: &str, spelling: &str) -> Result<Grammar, String> {
    let of = |folder, files: &[&str]| -> Vec<PathBuf> {
        let folder = Path::new(folder);
        files.iter().map(|file| folder.join(file)).collect()
    };
    let files = [of(spelling, &SPELLING_FILES), of(grammar, &GRAMMAR_FILES)].concat();
    let mut sources = vec![];
    for file in files {
        let source = fs::read_to_string(&file);
        sources.push(source.map_err(|error| format!("{}: {error}", file.display()))?);
    }
    entries::read(sources.iter().map(String::as_str))
}

/// Nothing, if the entries write the text of the sample's edition with its tokens.
pub fn difference(grammar: &Grammar, sample: &Sample, root: &Node) -> Option<String> {
    let tokens = match written(grammar, corners(sample.edition), root, &sample.pair.1) {
        Ok(tokens) => tokens,
        Err(error) => return Some(error),
    };
    let text = text_of(&tokens);
    if text != sample.text {
        return Some(format!("entries: {text:?}"));
    }
    (tokens != sample.tokens).then(|| format!("the same text from other tokens: {tokens:?}"))
}

fn compare(grammar: &Grammar, count: usize, seed: u64) -> Result<(), String> {
    let agreed = places::agree(&grammar.table)?;
    let mut random = Random::new(seed);
    let mut roots: BTreeMap<u16, usize> = BTreeMap::new();
    let mut records: BTreeMap<u16, usize> = BTreeMap::new();
    for _ in 0..count {
        let sample = sample_in_any(&mut random);
        let root = node(&sample.pair.0)?;
        hold(grammar, &sample, &root)?;
        *roots.entry(root.record.kind).or_default() += 1;
        tally(&root, &mut records);
    }
    println!("kind: as root, in all");
    for (kind, records) in &records {
        let roots = roots.get(kind).unwrap_or(&0);
        println!("{kind}: {roots}, {records}");
    }
    let entries = grammar.table.keys();
    let missing = entries.filter(|kind| !records.contains_key(kind));
    missing.for_each(|kind| println!("{kind}: none"));
    println!("{count} values");
    println!("{agreed} entries hold the model's slots");
    println!("{} entries, 0 differences", grammar.table.len());
    Ok(())
}

fn hold(grammar: &Grammar, sample: &Sample, root: &Node) -> Result<(), String> {
    let Some(difference) = difference(grammar, sample, root) else {
        return Ok(());
    };
    println!("kind {}\n{difference}", root.record.kind);
    println!("{:?}: {:?}", sample.edition, sample.text);
    println!("tree: {}", hex(&sample.pair.0));
    println!("text: {}", hex(&sample.pair.1));
    Err("1 difference".to_string())
}

/// Counts the kinds in a tree.
pub fn tally(node: &Node, counts: &mut BTreeMap<u16, usize>) {
    *counts.entry(node.record.kind).or_default() += 1;
    node.children.iter().for_each(|child| tally(child, counts));
}
