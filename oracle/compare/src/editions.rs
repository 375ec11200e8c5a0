//! The two editions (request viii): every spelling of a without-rowid text, every short operator text, each combination of a
//! table's options, and random trees with faults, with any options. Two readings of the refusal that were written apart must
//! agree on each of them, and the library with both; where the request changes nothing, both editions must write the same.

mod second;

use crate::crash;
use crate::drawn::{drawn, EDITIONS};
use crate::fuzz::Judge;
use crate::guarded::fences;
use crate::hex::hex;
use crate::report::{Numbers, MEASURED};
use crate::trees::{self, answers, told};
use model::check::check_with;
use model::damage::Case;
use model::editions::{
    body_with, bytes_more, in_case, operator_with, table_with, type_with, value, NOT_WHITE, WHITE,
};
use model::encode::Encode;
use model::options::{self, Edition, SETTINGS, SQLITE, STRICT};
use model::record::Record;
use model::samples::{drawn_in, of_in, Judged};
use std::collections::BTreeMap;
use std::fmt;
use tokens::random::Random;

/// Ways to spell the two words, a bit a letter.
const SPELLINGS: usize = 1 << 12;
#[cfg(feature = "selftest")]
const FEWER_SPELLINGS: usize = 1 << 6;
/// What short operator texts are made of, and all of them of up to so many.
const ALPHABET: [char; 4] = ['\'', 'a', '"', '`'];
const SHORT: usize = 5;
/// The number of a without-rowid text that says something else.
const OTHER: u32 = 10;
/// One random tree in so many is made from a value.
const VALUES: usize = 4;

type Checked = Result<(), String>;

/// What was compared without a difference.
#[derive(Default)]
pub struct Counts {
    /// How often each answer was due, for each sort of trees, in each edition.
    parts: BTreeMap<(&'static str, Edition), Numbers>,
    /// In the SQLite edition, with a text that says something else: by the answer in the crate's edition, how often 10 came
    /// first and how often it did not.
    beside: BTreeMap<u32, [u64; 2]>,
    /// Trees that both editions admit: those with the same text, and those with a longer one.
    texts: [u64; 2],
    trees: trees::Counts,
}

/// The systematic texts, and so many random trees.
pub fn compare(count: u64, seed: u64) -> Result<Counts, String> {
    compare_up_to(SPELLINGS, count, seed)
}

/// With fewer spellings.
#[cfg(feature = "selftest")]
pub fn compare_few(count: u64, seed: u64) -> Result<Counts, String> {
    compare_up_to(FEWER_SPELLINGS, count, seed)
}

fn compare_up_to(spellings: usize, count: u64, seed: u64) -> Result<Counts, String> {
    crash::watch();
    let mut all = Comparison {
        judge: Judge::new()?,
        random: Random::new(seed),
        counts: Counts::default(),
    };
    all.spelled(spellings)?;
    all.parted()?;
    all.operators()?;
    all.options()?;
    for _ in 0..count {
        match all.random.one_in(VALUES) {
            true => all.value()?,
            false => all.tree()?,
        }
    }
    Ok(all.counts)
}

struct Comparison {
    judge: Judge,
    random: Random,
    counts: Counts,
}

impl Comparison {
    /// WITHOUT ROWID with each letter in either case.
    fn spelled(&mut self, spellings: usize) -> Checked {
        for bits in 0..spellings {
            let text = format!(
                "{} {}",
                in_case("WITHOUT", bits),
                in_case("ROWID", bits >> 7)
            );
            self.rowid("each letter in either case", &text)?;
        }
        Ok(())
    }

    /// Each white space before, between and behind the words, and what is none; one word, two, three and none.
    fn parted(&mut self) -> Checked {
        let all: String = WHITE.iter().collect();
        for white in WHITE.into_iter().chain(NOT_WHITE) {
            for text in [
                format!("WITHOUT{white}ROWID"),
                format!("without{white}{white}rowid"),
                format!("{white}Without RowId"),
                format!("WITHOUT ROWID{white}"),
                format!("{white}WITHOUT{white}ROWID{white}"),
                format!("WITHOUT{white} ROWID"),
                format!("WITHOUT {white}ROWID"),
                format!("WITH{white}OUT ROWID"),
                format!("WITHOUT{white}"),
                format!("{white}"),
                format!("WITHOUT ROWID{white}x"),
            ] {
                self.rowid("white space and what is none", &text)?;
            }
        }
        self.rowid("white space and what is none", &all)?;
        let both = format!("{all}without{all}rowid{all}");
        self.rowid("white space and what is none", &both)?;
        let words = [
            "WITHOUT",
            "rowid",
            "ROWID",
            "a",
            "WITHOU",
            "ROWIDS",
            "w\u{131}thout",
        ];
        self.rowid("words in any number", "")?;
        for first in words {
            self.rowid("words in any number", first)?;
            for second in words {
                self.rowid("words in any number", &format!("{first} {second}"))?;
                for third in words {
                    let text = format!("{first} {second} {third}");
                    self.rowid("words in any number", &text)?;
                }
            }
        }
        Ok(())
    }

    /// A table's body alone, with another option behind, and a CREATE TABLE.
    fn rowid(&mut self, part: &'static str, text: &str) -> Checked {
        let text = || Some(text.to_string());
        self.both(part, &body_with(text(), None))?;
        self.both(part, &body_with(text(), Some("STRICT".to_string())))?;
        self.both(part, &table_with(body_with(text(), None)))
    }

    /// All operator texts of up to so many letters, alone, with a function and in a type.
    fn operators(&mut self) -> Checked {
        const PART: &str = "short operator texts";
        for length in 0..=SHORT {
            for number in 0..ALPHABET.len().pow(length as u32) {
                let text = numbered(number, length);
                self.both(PART, &operator_with(&text, None))?;
                self.both(PART, &operator_with(&text, Some(&text)))?;
                let two = vec![operator_with(&text, None), operator_with("'", Some("'"))];
                self.both(PART, &type_with(two))?;
            }
        }
        Ok(())
    }

    /// Each option absent, empty and there.
    fn options(&mut self) -> Checked {
        const PART: &str = "each combination of the two options";
        let first = [
            None,
            Some(""),
            Some(" "),
            Some("WITHOUT ROWID"),
            Some("a b"),
            Some("a"),
        ];
        let second = [
            None,
            Some(""),
            Some(" "),
            Some("STRICT"),
            Some("\u{B}"),
            Some(","),
            Some("it's"),
        ];
        for first in first {
            for second in second {
                let owned = |text: Option<&str>| text.map(str::to_string);
                let body = || body_with(owned(first), owned(second));
                self.both(PART, &body())?;
                self.both(PART, &table_with(body()))?;
            }
        }
        Ok(())
    }

    /// A value in both editions, with the switch off and on. The text is what the crate writes for the value, and for the
    /// value that is rewritten for SQLite.
    fn both(&mut self, part: &'static str, value: &dyn Encode) -> Checked {
        for setting in SETTINGS {
            let options = setting | options::meaningless(&mut self.random);
            let sample = of_in(Edition::of(options), value);
            self.hold(part, &sample.judged_with(options))?;
        }
        let case = Case::from(of_in(Edition::Crate, value).pair);
        self.hold_zero_part(part, &case)?;
        self.same_text(&case)
    }

    /// The same tree, with a without-rowid text of no bytes that starts at 0.
    fn hold_zero_part(&mut self, part: &'static str, case: &Case) -> Checked {
        for place in model::editions::rowids(&case.tree) {
            let record = Record::read(&case.tree, place).expect("a whole tree");
            if record.length > 0 {
                continue;
            }
            let mut case = case.clone();
            case.edit(place, |record| record.start = 0);
            for setting in SETTINGS {
                let judged = self.judge.judged(case.clone().with(setting))?;
                self.hold(part, &judged)?;
            }
        }
        Ok(())
    }

    /// A random value that has what the editions differ in. The entries must write what the crate does.
    fn value(&mut self) -> Checked {
        let value = value(&mut self.random);
        let options = options::any(&mut self.random);
        let sample = drawn_in(Edition::of(options), &mut self.random, &*value);
        let judged = sample.judged_with(options);
        let by_entries = self.judge.judged(judged.case.clone())?;
        if by_entries.expected != judged.expected {
            return Err(format!(
                "difference in random values: the crate gives {:?}, the entries {:?}\n{}",
                judged.expected,
                by_entries.expected,
                shown(&judged.case)
            ));
        }
        self.hold("random values", &judged)?;
        self.same_text(&judged.case)
    }

    /// A random tree in both editions, the other bits as they are.
    fn tree(&mut self) -> Checked {
        let (part, case) = drawn(&EDITIONS, &mut self.random);
        for edition in [0, SQLITE] {
            let options = case.options & !SQLITE | edition;
            let judged = self.judge.judged(case.clone().with(options))?;
            self.hold(part, &judged)?;
        }
        self.same_text(&case)
    }

    /// Both readings, then all calls for one tree, with options and without.
    fn hold(&mut self, part: &'static str, judged: &Judged) -> Checked {
        crash::at(self.counts.trees.calls());
        let case = &judged.case;
        let without = check_with(case.options & !SQLITE, &case.tree, &case.text);
        let expected = match Edition::of(case.options) {
            Edition::Sqlite => second::with_edition(case, without),
            Edition::Crate => without,
        };
        let modelled = case.refusal();
        if modelled != expected {
            return Err(format!(
                "difference in {part}: the model answers {modelled:?}, the second reading {expected:?}\n{}",
                shown(case)
            ));
        }
        let fences = fences(&mut self.random);
        let (random, counts) = (&mut self.random, &mut self.counts);
        let held = trees::hold_both(part, judged, fences, random, &mut counts.trees);
        held.map_err(|difference| difference.to_string())?;
        counts.count(part, case, without, expected);
        Ok(())
    }

    /// A tree that both editions admit: the texts, to which the library is held, are the same if there is no quote in an
    /// operator text and no table with both options; else each of these makes SQLite's a byte longer.
    fn same_text(&mut self, case: &Case) -> Checked {
        let options = case.options & STRICT;
        let texts = [options, options | SQLITE].map(|options| {
            let judged = self.judge.judged(case.clone().with(options))?;
            Ok::<_, String>(judged.expected.ok())
        });
        let [of_crate, sqlite] = texts;
        let (Some(of_crate), Some(sqlite)) = (of_crate?, sqlite?) else {
            return Ok(());
        };
        let more = bytes_more(case);
        let as_said = match more {
            0 => sqlite == of_crate,
            _ => sqlite.len() == of_crate.len() + more,
        };
        if !as_said {
            return Err(format!(
                "difference: {more} bytes more are due in the SQLite edition\ncrate's  {of_crate:?}\nSQLite's {sqlite:?}\n{}",
                shown(case)
            ));
        }
        self.counts.texts[usize::from(more > 0)] += 1;
        Ok(())
    }
}

/// The text whose letters are the digits of a number.
pub fn numbered(number: usize, length: usize) -> String {
    let base = ALPHABET.len();
    let letter = |power: usize| ALPHABET[number / base.pow(power as u32) % base];
    (0..length).rev().map(letter).collect()
}

fn shown(case: &Case) -> String {
    format!(
        "options {:#x}\ntree {}\ntext {}",
        case.options,
        hex(&case.tree),
        hex(&case.text)
    )
}

impl Counts {
    fn count(&mut self, part: &'static str, case: &Case, without: (u32, u32), with: (u32, u32)) {
        let edition = Edition::of(case.options);
        let numbers = self.parts.entry((part, edition)).or_default();
        numbers[with.0 as usize] += 1;
        if edition == Edition::Sqlite && says_otherwise(case) {
            let later = usize::from(with.0 != OTHER);
            self.beside.entry(without.0).or_default()[later] += 1;
        }
    }
}

/// Whether any without-rowid text says something else, as far as the records tell: behind a refused record, too.
fn says_otherwise(case: &Case) -> bool {
    model::editions::rowids(&case.tree).iter().any(|&place| {
        let record = Record::read(&case.tree, place).expect("a place in the tree");
        let start = record.start as usize;
        let part = case.text.get(start..start + record.length as usize);
        record.kind == model::grammar::TEXT && part.is_some_and(|part| !second::is_read(part))
    })
}

/// Tables as they are written in Markdown.
impl fmt::Display for Counts {
    fn fmt(&self, f: &mut fmt::Formatter<'_>) -> fmt::Result {
        let due = MEASURED;
        let heads = due.map(|number| number.to_string());
        writeln!(f, "| Trees | Edition | In all | {} |", heads.join(" | "))?;
        writeln!(f, "|---|---|---|{}", "---|".repeat(due.len()))?;
        for ((part, edition), numbers) in &self.parts {
            let cells = due.iter().map(|&number| told(numbers[number]));
            let cells: Vec<String> = cells.collect();
            let all = told(numbers.iter().sum());
            let edition = match edition {
                Edition::Crate => "the crate's",
                Edition::Sqlite => "SQLite's",
            };
            writeln!(f, "| {part} | {edition} | {all} | {} |", cells.join(" | "))?;
        }
        writeln!(
            f,
            "\n| In the crate's edition | 10 in SQLite's | the same in SQLite's, such a text behind |"
        )?;
        writeln!(f, "|---|---|---|")?;
        for (number, [other, later]) in &self.beside {
            writeln!(f, "| {number} | {} | {} |", told(*other), told(*later))?;
        }
        let [same, longer] = self.texts.map(told);
        writeln!(
            f,
            "\nadmitted in both editions: {same} with the same text, {longer} with as many bytes more as are due"
        )?;
        write!(f, "\n{}", answers(&self.trees.by_call()))
    }
}
