//! Small calls to measure and render in Rust, by the entries of the definition, with faults that can be planted in them.

mod edition;
mod strict;

use crate::faults::{planted, Fault};
use crate::fuzz::SOURCES;
use crate::named::texts::named;
use crate::stand_in;
use entries::faults::faulty;
use entries::interpret::{node, Corners};
use entries::shape::Shape;
use entries::{read, written, Grammar};
use model::check::{check, DEEPEST};
use model::grammar::LIST;
use model::options::Edition;
use model::outline::outline;
use model::record::{Record, MOST_BYTES, SIZE};
use std::slice::{from_raw_parts, from_raw_parts_mut};
use std::sync::{LazyLock, RwLock};
use tokens::encoding::{Refusal, CUT_OFF, NOT_UTF8};
use tokens::token::Token;
use turso_parser::token::TokenType::TK_COMMA;

static GRAMMAR: LazyLock<RwLock<Grammar>> =
    LazyLock::new(|| RwLock::new(read(SOURCES).expect("entries that can be read")));

/// The answer for a tree that faulty entries cannot write: no call has it.
const BROKEN: Refusal = (99, 0);
/// The most digits of a number.
const MOST_DIGITS: u32 = 19;
/// A shift of the number above the place.
const NUMBER_AT: u32 = 32;

/// # Safety
/// The two parts must be valid for their lengths.
pub unsafe extern "C" fn kinyandoma_measure(
    tree: *const u8,
    tree_len: usize,
    text: *const u8,
    text_len: usize,
) -> u64 {
    kinyandoma_measure_with(0, tree, tree_len, text, text_len)
}

/// # Safety
/// The three parts must be valid for their lengths.
pub unsafe extern "C" fn kinyandoma_render(
    tree: *const u8,
    tree_len: usize,
    text: *const u8,
    text_len: usize,
    out: *mut u8,
    out_len: usize,
) -> u64 {
    kinyandoma_render_with(0, tree, tree_len, text, text_len, out, out_len)
}

/// # Safety
/// The two parts must be valid for their lengths.
pub unsafe extern "C" fn kinyandoma_measure_with(
    options: u32,
    tree: *const u8,
    tree_len: usize,
    text: *const u8,
    text_len: usize,
) -> u64 {
    let (tree, text) = (
        from_raw_parts(tree, tree_len),
        from_raw_parts(text, text_len),
    );
    let left_out = match () {
        _ if planted(Fault::SwitchInRenderOnly) => 1,
        _ if planted(Fault::EditionInRenderOnly) => 2,
        _ => 0,
    };
    let options = options & !left_out;
    let length = rendered(options, tree, text).map(|bytes| bytes.len() as u32);
    packed(match length {
        Ok(length) => (0, length + u32::from(planted(Fault::LengthOneMore))),
        Err(refusal) => refusal,
    })
}

/// # Safety
/// The three parts must be valid for their lengths.
pub unsafe extern "C" fn kinyandoma_render_with(
    options: u32,
    tree: *const u8,
    tree_len: usize,
    text: *const u8,
    text_len: usize,
    out: *mut u8,
    out_len: usize,
) -> u64 {
    if planted(Fault::TreeTouched) {
        *tree.cast_mut() ^= 1;
    }
    let (tree, text) = (
        from_raw_parts(tree, tree_len),
        from_raw_parts(text, text_len),
    );
    // One byte more is lent than the caller said, for the faults that write it.
    let out = from_raw_parts_mut(out, out_len + 1);
    packed(render(options, tree, text, out, out_len))
}

/// number * 2^32 + place.
pub fn packed((number, place): Refusal) -> u64 {
    (u64::from(number) << NUMBER_AT) + u64::from(place)
}

fn render(options: u32, tree: &[u8], text: &[u8], out: &mut [u8], room: usize) -> Refusal {
    let bytes = match rendered(options, tree, text) {
        Ok(bytes) => bytes,
        Err(refusal) => {
            spoil(Fault::RefusedTreeWrites, &mut out[..room]);
            return refusal;
        }
    };
    let length = bytes.len();
    if length > room || planted(Fault::RoomTestStrict) && length == room {
        spoil(Fault::NoRoomWrites, &mut out[..room]);
        let told = if planted(Fault::RoomAsPlace) {
            room
        } else {
            length
        };
        return (8, told as u32);
    }
    out[..length].copy_from_slice(&bytes);
    if planted(Fault::OneByteBeyond) && length < room {
        out[length] ^= 1;
    }
    if planted(Fault::OneBytePastRoom) {
        out[room] ^= 1;
    }
    if planted(Fault::LastByteMissing) && length > 0 {
        out[length - 1] ^= 1;
    }
    (0, length as u32)
}

fn spoil(fault: Fault, out: &mut [u8]) {
    if planted(fault) {
        out.iter_mut().take(1).for_each(|byte| *byte ^= 1);
    }
}

/// The text of a tree, or its refusal.
pub fn rendered(options: u32, tree: &[u8], text: &[u8]) -> Result<Vec<u8>, Refusal> {
    let text = &seen(tree, text)[..];
    let edition = edition::of(options);
    let without = strict::refusal(options, tree, text, refusal(tree, text));
    match edition::refusal(edition, tree, text, without) {
        (0, _) => {}
        refusal => return Err(refusal),
    }
    let root = node(&misread(tree, text)).map_err(|_| BROKEN)?;
    let grammar = GRAMMAR.read().expect("no panic holds it");
    let mut tokens = written(&grammar, corners(edition), &root, text).map_err(|_| BROKEN)?;
    if planted(Fault::RootListWithoutCommas) && root.record.kind == LIST {
        tokens.retain(|token| token.number != TK_COMMA as u16);
    }
    let newline = text.first() == Some(&b'\n');
    let spaced = !(planted(Fault::FirstByteOfTextCounts) && newline);
    Ok(bytes_of(&tokens, spaced))
}

/// The text, or with the fault what the records name of it and letters.
fn seen(tree: &[u8], text: &[u8]) -> Vec<u8> {
    let named = match planted(Fault::OnlyPartsChecked) {
        true => named(tree, text),
        false => vec![true; text.len()],
    };
    let bytes = text.iter().zip(named);
    bytes
        .map(|(&byte, named)| if named { byte } else { b'x' })
        .collect()
}

/// The tree, with the faults that make a part longer by a byte behind it or before it.
fn misread(tree: &[u8], text: &[u8]) -> Vec<u8> {
    let mut tree = tree.to_vec();
    let ascii = |place: usize| text.get(place).is_some_and(u8::is_ascii);
    for index in 0..tree.len() / SIZE {
        let mut record = Record::read(&tree, index).expect("a whole record");
        let (start, length) = (record.start as usize, record.length as usize);
        if !record.names_part() || length == 0 {
            continue;
        }
        let behind = planted(Fault::ByteBehindPart) && ascii(start + length);
        let before = planted(Fault::ByteBeforePart) && start > 0 && ascii(start - 1);
        record.start -= u32::from(before);
        record.length += u32::from(before) + u32::from(behind);
        record.write(&mut tree, index);
    }
    tree
}

fn refusal(tree: &[u8], text: &[u8]) -> Refusal {
    let (number, place) = check(tree, text);
    let deepest = || outline(tree).iter().position(|node| node.depth == DEEPEST);
    match number {
        0 if planted(Fault::DepthOneLess) => deepest().map_or((0, 0), |index| (6, index as u32)),
        0 if planted(Fault::LongestTextRefused) && text.len() == MOST_BYTES => (NOT_UTF8, place),
        0 if planted(Fault::LongestTreeRefused) && tree.len() == MOST_BYTES => (1, place),
        NOT_UTF8 | CUT_OFF => stand_in::how_broken(text, (number, place)),
        3 if planted(Fault::WrongMarkTaken) => (4, place),
        5 if planted(Fault::PlaceInBytes) => (5, place * Record::new(0, 0).bytes().len() as u32),
        _ => (number, place),
    }
}

fn corners(edition: Edition) -> Corners {
    let mut corners = edition::corners_of(edition);
    if planted(Fault::WhiteIsBlank) {
        corners.white = |c| c.is_ascii_whitespace();
    }
    if planted(Fault::NoBreakSpaceIsNotWhite) {
        corners.white = |c| c.is_whitespace() && c != '\u{A0}';
    }
    if planted(Fault::ZeroWidthSpaceIsWhite) {
        corners.white = |c| c.is_whitespace() || c == '\u{200B}';
    }
    if planted(Fault::CommentOutsideLiteralsOnly) {
        corners.commented = |source| outside_literals(source).contains("--");
    }
    corners.decimal = subtracted;
    corners
}

/// The text of a number by subtraction of powers of ten, and no zero in front.
fn subtracted(number: i64) -> String {
    let mut text = String::from(if number < 0 { "-" } else { "" });
    let mut rest = number.unsigned_abs();
    let mut digits = 0;
    rest -= u64::from(planted(Fault::LowestOneLess) && number == i64::MIN);
    for place in (0..MOST_DIGITS).rev() {
        let unit = 10_u64.pow(place);
        let mut digit = b'0';
        while unit < rest || unit == rest && !planted(Fault::OneSubtractionTooFew) {
            rest -= unit;
            digit += 1;
        }
        let in_front = planted(Fault::ZeroInFront) && place == 1;
        let left_out = planted(Fault::PowerLeftOut) && place == 9;
        if !left_out && (digit > b'0' || digits > 0 || place == 0 || in_front) {
            text.push(char::from(digit));
            digits += 1;
        }
    }
    text
}

/// Each literal taken out with its quotes.
fn outside_literals(source: &str) -> String {
    let pieces = source.split('\'').step_by(2);
    pieces.collect::<Vec<_>>().join("''")
}

fn bytes_of(tokens: &[Token], mut spaced: bool) -> Vec<u8> {
    let mut bytes = vec![];
    for token in tokens {
        let value = token.value.as_deref().map(str::as_bytes);
        let (added, now) = stand_in::written(spaced, token.number, value);
        bytes.extend(added);
        spaced = now;
    }
    bytes
}

/// Each kind with entries that have one fault each.
pub fn faulty_entries() -> Vec<(u16, Shape)> {
    let grammar = GRAMMAR.read().expect("no panic holds it");
    let of_kind = |(kind, shape): (&u16, &Shape)| {
        let kind = *kind;
        faulty(shape).into_iter().map(move |copy| (kind, copy))
    };
    grammar.table.iter().flat_map(of_kind).collect()
}

/// Puts another entry in the place of a kind's, and answers the one that stood there.
pub fn exchange(kind: u16, shape: Shape) -> Shape {
    let mut grammar = GRAMMAR.write().expect("no panic holds it");
    let before = grammar.table.insert(kind, shape);
    before.expect("a kind of the table")
}
