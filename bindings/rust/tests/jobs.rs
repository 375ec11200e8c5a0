//! Many trees at once: document 02, request i.

mod common;

use common::{hex, lists, trees, List, Stored};
use kinyandoma::{
    id, list, render_jobs, render_jobs_to_strings, render_jobs_to_strings_with, render_jobs_with,
    render_to_string_with, render_with, EncodeError, Flag, Kind, Node, Options, Part, Reason,
    Refusal, Rendered, Trees,
};
use std::ops::Range;

/// What stands in an output before.
const BEFORE: u8 = 0xAA;

/// DROP TYPE IF EXISTS, as a Cmd.
fn drop_type(name: &str) -> Node {
    let drop = Node::new(Kind::DropType).flag(Flag::IfExists).text(name);
    Node::new(Kind::Cmd).child(drop)
}

/// Number, place and start of each job; an accepted one has number 0 and its length.
fn told(texts: &Rendered) -> Vec<(u32, usize, usize)> {
    let answer = |(index, text): (usize, Result<&str, Refusal>)| {
        let start = texts.start(index).unwrap();
        match text {
            Ok(text) => (0, text.len(), start),
            Err(refusal) => (refusal.number, refusal.place, start),
        }
    };
    texts.iter().enumerate().map(answer).collect()
}

#[test]
fn texts_stand_one_behind_the_other() {
    let mut trees = Trees::new();
    for name in ["geo", "caf\u{E9}", ""] {
        trees.add(drop_type(name)).unwrap();
    }
    let mut out = [BEFORE; 80];
    let texts = render_jobs(trees.trees(), trees.ranges(), trees.text(), &mut out);
    let expected = [
        "DROP TYPE IF EXISTS geo;",
        "DROP TYPE IF EXISTS caf\u{E9};",
        "DROP TYPE IF EXISTS ;",
    ];
    assert_eq!(
        texts.iter().collect::<Result<Vec<_>, _>>(),
        Ok(expected.to_vec())
    );
    assert_eq!(told(&texts), [(0, 24, 0), (0, 26, 24), (0, 21, 50)]);
    assert_eq!(texts.written(), expected.concat().as_bytes());
    assert_eq!((texts.len(), texts.is_empty()), (3, false));
    assert_eq!(texts.iter().len(), 3);
    assert_eq!((texts.get(3), texts.start(3)), (None, None));
    assert_eq!(out[71..], [BEFORE; 9]);
}

#[test]
fn no_jobs_write_nothing() {
    let mut out = [BEFORE; 4];
    let texts = render_jobs(b"no tree", &[], b"\xFF", &mut out);
    assert!(texts.is_empty());
    assert_eq!(texts.written(), b"");
    assert_eq!(texts.iter().next(), None);
    assert_eq!(out, [BEFORE; 4]);
    assert_eq!(render_jobs_to_strings(b"", &[], b""), []);
}

#[test]
fn a_refused_job_adds_nothing_and_the_next_go_on() {
    let mut trees = Trees::new();
    trees.add(id("first")).unwrap();
    let odd = Node::new(Kind::DropType);
    trees.add(odd).unwrap();
    trees.add(id("a long name")).unwrap();
    trees.add(id("last")).unwrap();
    let mut out = [BEFORE; 10];
    let texts = render_jobs(trees.trees(), trees.ranges(), trees.text(), &mut out);
    assert_eq!(told(&texts), [(0, 5, 0), (4, 0, 5), (8, 11, 5), (0, 4, 5)]);
    assert_eq!(texts.get(1).unwrap().unwrap_err().reason, Reason::Record);
    assert_eq!(texts.get(2).unwrap().unwrap_err().reason, Reason::NoRoom);
    assert_eq!(out, *b"firstlast\xAA");
}

#[test]
fn a_range_outside_comes_before_a_broken_text() {
    let (tree, text) = id("x").finish().unwrap();
    let length = tree.len();
    let end = usize::MAX;
    let reversed = Range { start: 32, end: 0 };
    let ranges = [
        0..length + 1,
        1..length + 1,
        length..length + 16,
        length + 1..length + 1,
        end..end,
        0..end,
        end - 16..end,
        0..length,
        length..length,
        0..15,
        reversed,
    ];
    let outside = [Reason::OutsideBuffer; 7];
    for (text, inside) in [
        (&text[..], None),
        (b"\xFF", Some(Reason::NotUtf8)),
        (b"\xC3", Some(Reason::CutOff)),
    ] {
        let mut out = [BEFORE; 8];
        let texts = render_jobs(&tree, &ranges, text, &mut out);
        let reasons = texts
            .iter()
            .map(|text| text.err().map(|refusal| refusal.reason));
        let mut expected: Vec<Option<Reason>> = outside.map(Some).into();
        expected.push(inside);
        expected.extend([Some(Reason::TreeLength); 3]);
        assert_eq!(reasons.collect::<Vec<_>>(), expected);
    }
}

#[test]
fn a_range_outside_is_told_in_plain_words() {
    let (tree, text) = id("x").finish().unwrap();
    let texts = render_jobs_to_strings(&tree, &[16..64, 0..32], &text);
    let told = texts[0].as_ref().unwrap_err().to_string();
    let expected =
        "refused with 1, place 0: the range of the job is not inside the buffer of trees; \
                    mend where it starts and ends";
    assert_eq!(told, expected);
}

#[test]
fn jobs_may_overlap_and_repeat() {
    let (tree, text) = drop_type("geo").finish().unwrap();
    let jobs = [0..48, 16..48, 0..48, 32..48];
    let texts = render_jobs_to_strings(&tree, &jobs, &text);
    let told: Vec<Option<&str>> = texts.iter().map(|text| text.as_deref().ok()).collect();
    let whole = Some("DROP TYPE IF EXISTS geo;");
    assert_eq!(told[..3], [whole, Some("DROP TYPE IF EXISTS geo"), whole]);
}

#[test]
fn results_are_read_with_for() {
    let mut trees = Trees::new();
    trees.add(id("a")).unwrap();
    trees.add(id("b")).unwrap();
    let mut out = [0; 2];
    let texts = render_jobs(trees.trees(), trees.ranges(), trees.text(), &mut out);
    let mut read = String::new();
    for text in &texts {
        read += text.unwrap();
    }
    assert_eq!(read, "ab");
}

#[test]
fn trees_share_one_text() {
    let mut trees = Trees::new();
    assert_eq!(trees.add(id("same")), Ok(0..32));
    assert_eq!(trees.add(list([id("same"), id("other")])), Ok(32..112));
    assert_eq!(trees.text(), b"sameother");
    let before = trees.trees().to_vec();
    let too_many = list(vec![Part::Run(id("x")); 4_000]);
    assert_eq!(trees.add(too_many), Err(EncodeError::TooManyRecords));
    assert_eq!(
        trees.add(id("y".repeat(65_536))),
        Err(EncodeError::TextTooLong)
    );
    assert_eq!((trees.trees(), trees.ranges().len()), (&before[..], 2));
    assert_eq!(trees.add(id("same")), Ok(112..144));
    let texts = render_jobs_to_strings(trees.trees(), trees.ranges(), trees.text());
    let texts: Vec<String> = texts.into_iter().map(Result::unwrap).collect();
    assert_eq!(texts, ["same", "same, other", "same"]);
}

/// Each tree may have as many records as one alone.
#[test]
fn the_limit_of_records_is_each_trees_own() {
    let most = || list(vec![Part::Run(Default::default()); 4_095]);
    let mut trees = Trees::new();
    trees.add(most()).unwrap();
    assert_eq!(trees.add(most()), Ok(65_536..131_072));
    let texts = render_jobs_to_strings(trees.trees(), trees.ranges(), trees.text());
    assert!(texts.iter().all(Result::is_ok));
}

/// Stored trees with the same options and the same text, in one buffer.
struct Group {
    stored: Vec<Stored>,
    buffer: Vec<u8>,
    ranges: Vec<Range<usize>>,
}

impl Group {
    /// Whether the tree may be a job beside the others.
    fn takes(&self, tree: &Stored) -> bool {
        let first = &self.stored[0];
        (first.options, &first.text) == (tree.options, &tree.text)
    }

    fn add(&mut self, tree: Stored) {
        let start = self.buffer.len();
        self.buffer.extend(&tree.tree);
        self.ranges.push(start..self.buffer.len());
        self.stored.push(tree);
    }
}

fn together() -> Vec<Group> {
    let mut groups: Vec<Group> = vec![];
    for tree in trees("replay_text") {
        match groups.iter_mut().find(|group| group.takes(&tree)) {
            Some(group) => group.add(tree),
            None => {
                let mut group = Group {
                    stored: vec![],
                    buffer: vec![],
                    ranges: vec![],
                };
                group.add(tree);
                groups.push(group);
            }
        }
    }
    groups
}

#[test]
fn jobs_are_the_single_calls_in_order_on_the_room_that_is_left() {
    for group in together() {
        let Group {
            stored,
            buffer,
            ranges,
        } = group;
        let (options, text) = (stored[0].options, &stored[0].text);
        let strings = render_jobs_to_strings_with(options, &buffer, &ranges, text);
        let needed: usize = strings.iter().flatten().map(String::len).sum();
        for room in [needed, needed + 5, needed.saturating_sub(1), needed / 2] {
            let mut single = vec![BEFORE; room];
            let mut at = 0;
            let mut expected = vec![];
            for tree in &stored {
                let answer = render_with(options, &tree.tree, text, &mut single[at..]);
                expected.push((answer, at));
                at += answer.unwrap_or(0);
            }
            let mut out = vec![BEFORE; room];
            let texts = render_jobs_with(options, &buffer, &ranges, text, &mut out);
            let lengths = texts.iter().map(|text| text.map(str::len));
            let starts = (0..texts.len()).map(|index| texts.start(index).unwrap());
            assert_eq!(lengths.zip(starts).collect::<Vec<_>>(), expected);
            assert_eq!(texts.written().len(), at);
            assert_eq!(out, single);
        }
        for (string, tree) in strings.into_iter().zip(&stored) {
            assert_eq!(string, render_to_string_with(options, &tree.tree, text));
        }
    }
}

/// The jobs of a stored list as ranges, if each of them is one: its end is no more than `usize::MAX`.
fn ranges(list: &List) -> Option<Vec<Range<usize>>> {
    let range = |&(start, length): &(u64, u64)| {
        let end = usize::try_from(start.checked_add(length)?).ok()?;
        Some(start as usize..end)
    };
    list.jobs.iter().map(range).collect()
}

#[test]
fn lists_of_jobs_are_answered_as_stored() {
    let stored = lists();
    let mut held = 0;
    for list in &stored {
        let Some(ranges) = ranges(list) else {
            continue;
        };
        let mut out = vec![BEFORE; list.room];
        let texts = render_jobs_with(list.options, &list.trees, &ranges, &list.text, &mut out);
        let mut line = texts.written().len().to_string();
        for (number, place, start) in told(&texts) {
            line += &format!(" {number}:{place}:{start}");
        }
        let written = texts.written().len();
        let kept = out[written..].iter().all(|&byte| byte == BEFORE);
        let kept = if kept { "kept" } else { "CHANGED" };
        assert_eq!(
            format!("{line} {} {kept}", hex(&out[..written])),
            list.expected
        );
        held += 1;
    }
    assert_eq!((stored.len(), held), (127, 111));
}

#[test]
fn options_hold_for_all_jobs() {
    let (tree, text) = Node::new(Kind::OperatorClause)
        .text("it's")
        .none()
        .finish()
        .unwrap();
    let jobs = [0..tree.len(), 0..tree.len()];
    let sqlite = Options::new().sqlite(true);
    let texts = render_jobs_to_strings_with(sqlite, &tree, &jobs, &text);
    assert_eq!(texts, vec![Ok("OPERATOR 'it''s'".to_string()); 2]);
}
