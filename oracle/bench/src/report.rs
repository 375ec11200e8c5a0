//! The tables, in Markdown.

use crate::clock::Times;
use crate::count;
use crate::cut::{Text, READERS};
use crate::item::{done, Input, Item};
use crate::jobs::{Batch, Way, WAYS};
use crate::stack;
use crate::subject::{Subject, APPENDS, TEXTS};
use model::record::MOST_BYTES;
use tokens::token::{Token, VALUE_PRESENT};

/// Nanoseconds in a microsecond.
const MICRO: f64 = 1_000.0;
/// What the room for a token needs besides its value: a space, and the longest spelling.
const WORD: usize = 32;

/// The subjects of the growth.
const GROWING: [Subject; 3] = [Subject::CrateTokens, Subject::Measure, Subject::Render];

/// The ways of the growth of jobs, and the place of the call itself among them.
const GROWTH_OF_JOBS: [Way; 3] = [Way::CrateValue, Way::SharedText, Way::Jobs];
const JOBS: usize = 2;

/// Microseconds of a pass over each input, and how render stands to the crate.
pub fn texts(inputs: &[Input]) {
    println!("\nMicroseconds a pass:\n");
    println!("| Input | Records | Bytes written | Crate: value to String | Crate: tokens to String | measure | render | render / value | render / tokens |");
    println!("|---|---|---|---|---|---|---|---|---|");
    for input in inputs {
        let times = Times::new(input, &TEXTS);
        let [value, tokens, measure, render] = [0, 1, 2, 3].map(|at| micro(times.best(at)));
        println!(
            "| {} | {} | {} | {value} | {tokens} | {measure} | {render} | {:.2} | {:.2} |",
            input.name,
            input.records(),
            input.written(),
            times.ratio(3, 0),
            times.ratio(3, 1),
        );
    }
}

/// Nanoseconds of one token.
pub fn appends(inputs: &[Input]) {
    println!("\nNanoseconds a token:\n");
    println!("| Tokens of | Tokens | Crate: append | append | append / crate |");
    println!("|---|---|---|---|---|");
    for input in inputs {
        let times = Times::new(input, &APPENDS);
        let (name, count) = (&input.name, input.tokens());
        let [theirs, ours] = [0, 1].map(|at| times.best(at) / count as f64);
        let ratio = times.ratio(1, 0);
        println!("| {name} | {count} | {theirs:.1} | {ours:.1} | {ratio:.2} |");
    }
}

/// How times grow with the records.
pub fn growth(series: &[Vec<Input>]) {
    println!("\nGrowth, in microseconds:\n");
    println!(
        "| Tree | Crate: tokens to String | measure | render | render, nanoseconds a record |"
    );
    println!("|---|---|---|---|---|");
    for input in series.iter().flatten() {
        let times = Times::new(input, &GROWING);
        let [tokens, measure, render] = [0, 1, 2].map(|at| micro(times.best(at)));
        let each = times.best(2) / input.records() as f64;
        println!(
            "| {} | {tokens} | {measure} | {render} | {each:.1} |",
            input.name
        );
    }
}

/// Microseconds of all tables at once, beside the crate and beside single calls.
pub fn jobs(batch: &mut Batch) {
    let times = Times::of(WAYS.len(), &mut |at| batch.pass(WAYS[at]));
    let [value, own, shared, ample, exact] = [0, 1, 2, 3, 4].map(|at| micro(times.best(at)));
    println!("\n{}, microseconds:\n", told_batch(batch));
    println!("| | Crate: value to String | single calls, each with its own text | single calls, one text | jobs, ample room | jobs, exact room |");
    println!("|---|---|---|---|---|---|");
    println!("| best round | {value} | {own} | {shared} | {ample} | {exact} |");
    for (name, jobs) in [("jobs, ample room", 3), ("jobs, exact room", 4)] {
        let ratios = [0, 1, 2].map(|to| format!("{:.2}", times.ratio(jobs, to)));
        println!("| {name} / this | {} | | |", ratios.join(" | "));
    }
}

fn told_batch(batch: &Batch) -> String {
    format!(
        "Schema of {} tables as jobs over one text of {} bytes ({} records, {} bytes written)",
        batch.count(),
        batch.text(),
        batch.records(),
        batch.written()
    )
}

/// How the times of jobs over one text grow with their records: a constant, and so much a record.
pub fn growth_of_jobs(batches: &mut [Batch]) {
    let ways = GROWTH_OF_JOBS.len();
    let times = Times::of(batches.len() * ways, &mut |at| {
        batches[at / ways].pass(GROWTH_OF_JOBS[at % ways])
    });
    let best = |batch: usize, way: usize| times.best(batch * ways + way);
    let records = |batch: usize| batches[batch].records() as f64;
    let last = batches.len() - 1;
    let each = (best(last, JOBS) - best(0, JOBS)) / (records(last) - records(0));
    let constant = best(0, JOBS) - each * records(0);
    let text = batches[0].text();
    println!("\nOne text of {text} bytes, microseconds:\n");
    println!("| Jobs | Records | Crate: value to String | single calls, one text | jobs | constant + {each:.2} ns a record |");
    println!("|---|---|---|---|---|---|");
    for (at, batch) in batches.iter().enumerate() {
        let [value, single, jobs] = [0, 1, JOBS].map(|way| micro(best(at, way)));
        let line = micro(constant + each * records(at));
        let (count, records) = (batch.count(), batch.records());
        println!("| {count} | {records} | {value} | {single} | {jobs} | {line} |");
    }
    println!("\nThe constant is {} microseconds.", micro(constant));
}

/// Microseconds of cutting each text, beside the crate's lexer.
pub fn cuts(texts: &[Text]) {
    println!("\nTexts cut, microseconds:\n");
    println!("| Text | Bytes | Lexemes | Crate: lexer | lexeme | lexeme / crate |");
    println!("|---|---|---|---|---|---|");
    for text in texts {
        let times = Times::of(READERS.len(), &mut |at| text.pass(READERS[at]));
        let [theirs, ours] = [0, 1].map(|at| micro(times.best(at)));
        let ratio = times.ratio(1, 0);
        println!("{} {theirs} | {ours} | {ratio:.2} |", told_text(text));
    }
}

/// Instructions of cutting each text, where callgrind is to be had.
pub fn instructions_of_cuts(texts: &[Text]) {
    println!("\nTexts cut, instructions:\n");
    println!("| Text | Bytes | Lexemes | Crate: lexer | lexeme | lexeme / crate |");
    println!("|---|---|---|---|---|---|");
    for (at, text) in texts.iter().enumerate() {
        let counts = [0, 1].map(|reader| count::instructions_of_cut(at, reader));
        let [Some(theirs), Some(ours)] = counts else {
            println!("valgrind cannot be run");
            return;
        };
        let ratio = ours as f64 / theirs as f64;
        println!("{} {theirs} | {ours} | {ratio:.2} |", told_text(text));
    }
}

/// The first cells of a row: name, bytes and lexemes.
fn told_text(text: &Text) -> String {
    let (name, bytes) = (text.name, text.bytes.len());
    let lexemes = text.pass(READERS[0]);
    format!("| {name} | {bytes} | {lexemes} |")
}

/// Instructions of one pass over the schema in each way, where callgrind is to be had.
pub fn instructions_of_jobs(batch: &mut Batch) {
    let counts: Option<Vec<u64>> = (0..WAYS.len()).map(count::instructions_of_jobs).collect();
    let Some(counts) = counts else {
        println!("valgrind cannot be run");
        return;
    };
    let counts: Vec<String> = counts.iter().map(u64::to_string).collect();
    println!("\n{}, instructions:\n", told_batch(batch));
    println!("| Crate: value to String | single calls, each with its own text | single calls, one text | jobs, ample room | jobs, exact room |");
    println!("|---|---|---|---|---|");
    println!("| {} |", counts.join(" | "));
}

/// Instructions of one pass, where callgrind is to be had.
pub fn instructions(inputs: &[Input]) {
    println!("\nInstructions a pass:\n");
    println!("| Input | Crate: value to String | Crate: tokens to String | measure | render | render / value | Crate: append | append |");
    println!("|---|---|---|---|---|---|---|---|");
    for (at, input) in inputs.iter().enumerate() {
        let count = |subject: &Subject| count::instructions(at, *subject);
        let texts: Option<Vec<u64>> = TEXTS.iter().map(count).collect();
        let appends: Option<Vec<u64>> = APPENDS.iter().map(count).collect();
        let (Some(texts), Some(appends)) = (texts, appends) else {
            println!("valgrind cannot be run");
            return;
        };
        let ratio = texts[3] as f64 / texts[0] as f64;
        println!(
            "| {} | {} | {} | {} | {} | {ratio:.2} | {} | {} |",
            input.name, texts[0], texts[1], texts[2], texts[3], appends[0], appends[1]
        );
    }
}

/// Bytes of stack that each call takes.
pub fn stack_of(trees: Vec<(&str, Vec<Item>)>) {
    println!("\nBytes of stack:\n");
    println!("| Tree | measure | render | jobs |");
    println!("|---|---|---|---|");
    for (name, items) in trees {
        let measured = items.iter().map(|item| taken(stack::measure(item), item));
        let rendered = items.iter().map(|item| taken(stack::render(item), item));
        let (measured, rendered) = (measured.max(), rendered.max());
        println!(
            "| {name} | {} | {} | {} |",
            measured.unwrap_or(0),
            rendered.unwrap_or(0),
            taken_by_jobs(&items)
        );
    }
    println!("\nappend: {} bytes of stack at most", most_of_append());
}

fn taken_by_jobs(items: &[Item]) -> usize {
    let taken = stack::jobs(items);
    let written = items.iter().map(|item| item.expected.len()).sum();
    assert_eq!(taken.answer, done(written));
    taken.bytes
}

fn taken(taken: stack::Taken, item: &Item) -> usize {
    assert_eq!(taken.answer, done(item.expected.len()));
    taken.bytes
}

/// Over values of a few lengths, with room and without.
fn most_of_append() -> usize {
    let mut most = 0;
    let flags = Token::id("x").flags();
    assert!(flags & VALUE_PRESENT != 0);
    for length in [0, 1, 100, MOST_BYTES] {
        let value = vec![b'x'; length];
        for room in [0, length + WORD] {
            most = most.max(stack::append(flags, &value, room).bytes);
        }
    }
    most
}

fn micro(nanoseconds: f64) -> String {
    format!("{:.2}", nanoseconds / MICRO)
}
