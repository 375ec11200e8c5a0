//! Random lists of jobs: good, damaged and random trees over one text, and jobs for them, beside them, inside them and nowhere.

use crate::fuzz::{good, Pool};
use model::check::check;
use model::damage::text::{bad, filled_to};
use model::damage::Case;
use model::grammar::{RUN, TOKEN};
use model::jobs::{List, Part};
use model::options;
use model::outline::outline;
use model::record::{Record, MOST_BYTES, SIZE};
use model::shared::Shared;
use std::ops::Range;
use tokens::random::Random;
use tokens::token::Token;
use tokens::values::BROKEN_ENDS;

/// Most trees of a buffer; one in so many has none.
const TREES: usize = 5;
const BARE: usize = 30;
/// Most jobs of a list; one in so many has more, up to so many.
const FEW: usize = 8;
const MANY: usize = 10;
const MOST: usize = 20;
/// One tree in so many has bytes before it, fewer than this.
const APART: usize = 4;
const BETWEEN: usize = 20;
/// Most bytes of a part that is named many times, and most times.
const PART: usize = 400;
const TIMES: usize = 12;
/// One tree in so many keeps its text although it is broken, and with it breaks the text of all.
const BROKEN: usize = 12;
/// One text in so many is changed as a whole; of these, one in so many is as long as a text may be, or about.
const CHANGED: usize = 12;
const LONG: usize = 20;

/// What a job is drawn as.
type Draw = fn(&mut Random, &Drawn) -> Part;
/// Each with how often it is drawn.
const DRAWS: [(usize, &str, Draw); 8] = [
    (10, "a tree", tree),
    (2, "the tree before, again", again),
    (3, "a record of a tree with all below it", nested),
    (2, "any part of the buffer", any),
    (1, "an empty part", empty),
    (2, "about a tree", about),
    (2, "a little past the end", past),
    (3, "a huge number", huge),
];

/// Trees over one text, and where they stand.
struct Drawn {
    shared: Shared,
    places: Vec<Range<usize>>,
    jobs: Vec<Part>,
}

/// A list, with the sort of each of its jobs.
pub fn drawn(pool: &Pool, random: &mut Random) -> (List, Vec<&'static str>) {
    let mut drawn = trees(pool, random);
    change_text(random, &mut drawn.shared.text);
    let most = if random.one_in(MANY) { MOST } else { FEW };
    let mut sorts = vec![];
    for _ in 0..random.between(0, most) {
        let (sort, draw) = one_of_the_draws(random);
        let job = draw(random, &drawn);
        drawn.jobs.push(job);
        sorts.push(sort);
    }
    let list = List {
        options: options::any(random),
        jobs: drawn.jobs,
        trees: drawn.shared.trees,
        text: drawn.shared.text,
    };
    (list, sorts)
}

fn one_of_the_draws(random: &mut Random) -> (&'static str, Draw) {
    let total = DRAWS.iter().map(|(weight, ..)| weight).sum();
    let mut at = random.below(total);
    for (weight, sort, draw) in DRAWS {
        if at < weight {
            return (sort, draw);
        }
        at -= weight;
    }
    unreachable!("the weights add up")
}

/// Trees one behind the other: half of them good ones, the others of any sort.
fn trees(pool: &Pool, random: &mut Random) -> Drawn {
    let mut shared = Shared::default();
    let mut places = vec![];
    let least = usize::from(!random.one_in(BARE));
    for _ in 0..random.between(least, least * TREES) {
        if random.one_in(APART) {
            let count = random.below(BETWEEN);
            shared.trees.extend(random.bytes(count));
        }
        let case = match random.below(12) {
            0 => long(random),
            1..=6 => good(random),
            _ => pool.drawn(random).1,
        };
        let whole = std::str::from_utf8(&case.text).is_ok() && case.text.len() <= MOST_BYTES;
        let text: &[u8] = match whole || random.one_in(BROKEN) {
            true => &case.text,
            false => b"",
        };
        places.push(shared.add(&case.tree, text));
    }
    let jobs = vec![];
    Drawn {
        shared,
        places,
        jobs,
    }
}

/// A RUN that names one part many times: its text may be longer than a draft.
fn long(random: &mut Random) -> Case {
    let mut text = vec![];
    let length = random.between(1, PART);
    filled_to(random, &mut text, length);
    let tokens = random.between(1, TIMES);
    let flags = Token::id("").flags();
    let token = Record::part(TOKEN, flags, 0, length as u32).bytes();
    let run = Record::new(RUN, tokens as u16).bytes();
    let tree = [&run[..], &token.repeat(tokens)].concat();
    Case::from((tree, text))
}

/// Mostly not; else it is broken somewhere or at its end, cut anywhere, empty, or about as long as a text may be.
fn change_text(random: &mut Random, text: &mut Vec<u8>) {
    if !random.one_in(CHANGED) {
        return;
    }
    match random.below(5) {
        0 if random.one_in(LONG) => {
            let length = random.between(MOST_BYTES - 1, MOST_BYTES + 1);
            filled_to(random, text, length);
        }
        0 | 1 => {
            let mut case = Case::from((vec![], std::mem::take(text)));
            bad(random, &mut case);
            *text = case.text;
        }
        2 => text.truncate(random.between(0, text.len())),
        3 => text.extend(random.pick(&BROKEN_ENDS)),
        _ => text.clear(),
    }
}

impl Drawn {
    /// The place of one of the trees; the whole buffer if there is none.
    fn place(&self, random: &mut Random) -> Range<usize> {
        match self.places.is_empty() {
            true => 0..self.length(),
            false => self.places[random.below(self.places.len())].clone(),
        }
    }

    fn length(&self) -> usize {
        self.shared.trees.len()
    }
}

fn part(place: Range<usize>) -> Part {
    Part {
        start: place.start as u64,
        length: place.len() as u64,
    }
}

fn tree(random: &mut Random, drawn: &Drawn) -> Part {
    part(drawn.place(random))
}

fn again(random: &mut Random, drawn: &Drawn) -> Part {
    match drawn.jobs.last() {
        Some(job) => *job,
        None => tree(random, drawn),
    }
}

/// Any record of an admitted tree; of another, all from any record on.
fn nested(random: &mut Random, drawn: &Drawn) -> Part {
    let place = drawn.place(random);
    let tree = &drawn.shared.trees[place.clone()];
    if check(tree, &drawn.shared.text) == (0, 0) {
        let nodes = outline(tree);
        let node = &nodes[random.below(nodes.len())];
        return part(place.start + node.index * SIZE..place.start + node.end * SIZE);
    }
    let first = random.between(0, tree.len() / SIZE) * SIZE;
    part(place.start + first..place.end)
}

/// Of any number of bytes, or of whole records.
fn any(random: &mut Random, drawn: &Drawn) -> Part {
    let start = random.between(0, drawn.length());
    let behind = drawn.length() - start;
    let length = match random.one_in(2) {
        true => random.between(0, behind),
        false => random.between(0, behind / SIZE) * SIZE,
    };
    part(start..start + length)
}

/// Anywhere, at the end, and one byte past it.
fn empty(random: &mut Random, drawn: &Drawn) -> Part {
    let length = drawn.length();
    let any = random.between(0, length);
    let start = random.pick(&[0, any, any, length, length + 1]);
    part(start..start)
}

/// A tree with its start, its end or both moved a little.
fn about(random: &mut Random, drawn: &Drawn) -> Part {
    let mut part = tree(random, drawn);
    let few = random.below(SIZE) as u64;
    let by = random.pick(&[1, SIZE as u64, few]);
    let by = random.pick(&[by, by.wrapping_neg()]);
    match random.below(3) {
        0 => part.start = part.start.wrapping_add(by),
        1 => part.length = part.length.wrapping_add(by),
        _ => {
            part.start = part.start.wrapping_add(by);
            part.length = part.length.wrapping_sub(by);
        }
    }
    part
}

/// Ends one byte or one record past the buffer, or begins there.
fn past(random: &mut Random, drawn: &Drawn) -> Part {
    let end = drawn.length() as u64;
    let by = random.pick(&[1, SIZE as u64]);
    let inside = random.between(0, drawn.length()) as u64;
    let (start, length) = random.pick(&[
        (inside, end - inside + by),
        (end, by),
        (end + by, 0),
        (end + by, SIZE as u64),
        (0, end + by),
    ]);
    Part { start, length }
}

/// Start, length or both near 2^64, 2^63 or 2^32; or such that their sum wraps to where a tree ends, or ends there in its low half.
fn huge(random: &mut Random, drawn: &Drawn) -> Part {
    let Part { start, length } = tree(random, drawn);
    let edge = random.pick(&[0, 1 << 63, 1 << 32, 1 << 31]);
    let near = |random: &mut Random| u64::wrapping_sub(edge, random.word() % 40);
    let end = start.wrapping_add(length);
    let (start, length) = match random.below(7) {
        0 => (u64::MAX, random.pick(&[0, 1, u64::MAX])),
        1 => (near(random), length),
        2 => (start, near(random)),
        3 => (near(random), near(random)),
        4 => {
            let start = near(random);
            (start, end.wrapping_sub(start))
        }
        5 => (start.wrapping_add(1 << 32), length),
        _ => (start, length.wrapping_add(1 << 32)),
    };
    Part { start, length }
}

/// Rooms to try, by the lengths of the texts: ample, just enough, one that ends at a text's end or beside it, and any.
pub fn rooms(random: &mut Random, lengths: &[usize]) -> Vec<usize> {
    let total: usize = lengths.iter().sum();
    let texts = random.between(0, lengths.len());
    let end: usize = lengths[..texts].iter().sum();
    let at_an_end = random.pick(&[end.saturating_sub(1), end, end + 1]);
    let ample = total + random.below(BETWEEN);
    let any = random.between(0, total);
    vec![random.pick(&[ample, total]), random.pick(&[at_an_end, any])]
}
