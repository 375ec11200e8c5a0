//! Times, instructions and stack of the library's calls, side by side with the crate.

mod clock;
mod count;
mod cut;
mod deep;
mod inputs;
mod item;
mod jobs;
mod report;
mod schema;
mod stack;
mod subject;

use item::Input;
use jobs::Batch;
use std::{env, process};
use subject::verify;

const USAGE: &str = "usage: bench [times | jobs | cut | instructions | stack]";

fn main() {
    let words: Vec<String> = env::args().skip(1).collect();
    let words: Vec<&str> = words.iter().map(String::as_str).collect();
    match words[..] {
        [] => {
            times();
            many();
            cuts();
            stack();
            instructions();
        }
        ["times"] => times(),
        ["jobs"] => many(),
        ["cut"] => cuts(),
        ["instructions"] => instructions(),
        ["stack"] => stack(),
        ["once", input, subject] => count::once(input, subject).unwrap_or_else(|error| {
            fail(&error.to_string());
        }),
        _ => fail(USAGE),
    }
}

fn fail(message: &str) -> ! {
    eprintln!("{message}");
    process::exit(2);
}

/// Both texts are equal before anything is timed.
fn verified(inputs: &[Input]) {
    inputs.iter().for_each(|input| told(verify(input)));
}

/// A difference ends the program.
fn told(verified: Result<(), String>) {
    if let Err(difference) = verified {
        eprintln!("{difference}");
        process::exit(1);
    }
}

fn times() {
    let usual = inputs::usual();
    let growing = inputs::growing();
    verified(&usual);
    growing.iter().for_each(|series| verified(series));
    report::texts(&usual);
    report::appends(&usual);
    report::growth(&growing);
}

/// Many trees at once.
fn many() {
    let mut schema = Batch::of_schema();
    let mut growing = Batch::growing();
    told(schema.verify());
    growing.iter_mut().for_each(|batch| told(batch.verify()));
    report::jobs(&mut schema);
    report::growth_of_jobs(&mut growing);
}

/// Texts that are cut.
fn cuts() {
    let texts = cut::texts();
    texts.iter().for_each(|text| told(text.verify()));
    report::cuts(&texts);
}

fn instructions() {
    report::instructions(&inputs::usual());
    report::instructions_of_jobs(&mut Batch::of_schema());
    report::instructions_of_cuts(&cut::texts());
}

/// Told where the calls are x86-64 code, as the library is.
fn stack() {
    match cfg!(target_arch = "x86_64") {
        true => report::stack_of(deep::trees()),
        false => println!("\nThe stack is told on x86-64 only."),
    }
}
