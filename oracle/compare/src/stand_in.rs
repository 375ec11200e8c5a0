//! A small kinyandoma_append in Rust, with faults that can be planted in it.

use crate::faults::{planted, Fault};
use calls::{number, Stream, COLUMN, COUNT, LINE, RECORD};
use std::slice::{from_raw_parts, from_raw_parts_mut};
use tokens::encoding::{self, text_in, Refusal, CUT_OFF, LONGEST, NOT_UTF8};
use tokens::token::kind_of;

const COMMA: u16 = 25;
const SEMI: u16 = 1;
const LP: u16 = 22;
const RP: u16 = 23;
const DOT: u16 = 142;
const BLOB: u16 = 154;
const LBRACKET: u16 = 189;
const RBRACKET: u16 = 190;

/// The beginning of an overlong form: no character begins so.
const OVERLONG: [u8; 2] = [0xF0, 0x80];

/// A longer value may be laid in a way of its own.
const AT_ONCE: usize = 16;

/// # Safety
/// The three parts must be valid for their lengths.
pub unsafe extern "C" fn kinyandoma_append(
    record: *mut u8,
    record_len: usize,
    out: *mut u8,
    out_len: usize,
    token: u16,
    value: *const u8,
    value_len: usize,
) -> u64 {
    let record = from_raw_parts_mut(record, record_len);
    let value = from_raw_parts(value, value_len);
    // One byte more is lent than the caller said, for the fault that writes it.
    let out = from_raw_parts_mut(out, out_len + 1);
    let (number, place) = append(record, out, out_len, token, value);
    (u64::from(number) << 32) + u64::from(place)
}

fn append(record: &mut [u8], out: &mut [u8], out_len: usize, token: u16, value: &[u8]) -> Refusal {
    let held = !(planted(Fault::LongValueNotHeld) && value.len() > AT_ONCE);
    let Some(stream) = unpacked(record, out_len as u64, held) else {
        return (1, 0);
    };
    let number = token & 0x7FFF;
    let present = token >> 15 == 1;
    let broken = broken(value);
    if let (Some(refusal), true) = (broken, planted(Fault::ValueBeforeToken)) {
        return refusal;
    }
    let stray_value = !present && !value.is_empty() && !planted(Fault::ValueWithoutBit);
    if !known(number) || stray_value {
        return (4, 0);
    }
    if let Some(refusal) = broken {
        return refusal;
    }
    let (added, now_spaced) = written(stream.spaced, number, present.then_some(value));
    if !fits(added.len(), out_len - stream.count as usize) {
        spoil_refused(record, &mut out[..out_len], added.len());
        return (8, added.len() as u32);
    }
    lay(out, stream.count as usize, &added);
    pack(after(&stream, &added, now_spaced), record);
    (0, added.len() as u32)
}

/// Whether so many bytes are within the room.
fn fits(needed: usize, room: usize) -> bool {
    match planted(Fault::ExactRoomRefused) {
        true => needed < room,
        false => needed <= room,
    }
}

/// Writes the bytes at the count.
fn lay(out: &mut [u8], count: usize, added: &[u8]) {
    out[count..count + added.len()].copy_from_slice(added);
    if planted(Fault::OneByteMore) {
        out[count + added.len()] = 0;
    }
}

/// What a record of a good length, first byte and numbers says; whether line and column are held to the count is told.
fn unpacked(record: &[u8], out_len: u64, held: bool) -> Option<Stream> {
    let shorter = planted(Fault::NineBytesTaken) && record.len() == COUNT.end;
    let longer = planted(Fault::LongerRecord) && record.len() > RECORD;
    let length_is_good = record.len() == RECORD || shorter || longer;
    if !length_is_good || record[0] > 1 && !planted(Fault::AnyFirstByte) {
        return None;
    }
    let mut count = number(record, COUNT);
    if planted(Fault::ShortCount) {
        count &= 0xFFFF_FFFF;
    }
    let numbers = |place| if shorter { 0 } else { number(record, place) };
    let [line, column] = [LINE, COLUMN].map(numbers);
    let spaced = record[0] == 1;
    let numbers_are_good = count <= out_len && (!held || within(count, line, column));
    numbers_are_good.then_some(Stream {
        spaced,
        count,
        line,
        column,
    })
}

/// Whether line and column can be those of so many bytes.
fn within(count: u64, line: u64, column: u64) -> bool {
    let line_is_good = line <= count || planted(Fault::LinePastCount);
    let column_is_good = column <= count || planted(Fault::ColumnPastCount);
    let sum_is_good = !planted(Fault::SumHeldToCount) || line.saturating_add(column) <= count;
    line_is_good && column_is_good && sum_is_good
}

/// The stream when these bytes are written, one after the other.
fn after(stream: &Stream, added: &[u8], spaced: bool) -> Stream {
    let mut after = Stream { spaced, ..*stream };
    let mut before = 0;
    for &byte in added {
        after.count += 1;
        match ends_line(byte) {
            true => end_line(&mut after, ends_line(before)),
            false => move_on(&mut after, counts_in_column(byte)),
        }
        before = byte;
    }
    after
}

/// Whether the byte is a newline.
fn ends_line(byte: u8) -> bool {
    byte == b'\n' || planted(Fault::ReturnIsNewline) && byte == b'\r'
}

/// A newline, which may stand directly behind another one.
fn end_line(stream: &mut Stream, behind_another: bool) {
    let once = planted(Fault::LineOnceForTwo) && behind_another;
    stream.line = stream.line.wrapping_add(u64::from(!once));
    stream.column = match planted(Fault::ColumnRunsOn) {
        true => stream.column.wrapping_add(1),
        false => 0,
    };
}

/// A byte that is no newline. A column that should have been refused may go past its end.
fn move_on(stream: &mut Stream, counts: bool) {
    stream.column = stream.column.wrapping_add(u64::from(counts));
}

/// Whether the byte moves the column on: each does.
fn counts_in_column(byte: u8) -> bool {
    let begins_character = !(0x80..0xC0).contains(&byte);
    begins_character || !planted(Fault::ColumnInCharacters)
}

/// Writes the stream to its record, as far as the record goes.
fn pack(mut stream: Stream, record: &mut [u8]) {
    if planted(Fault::CountAndLineExchanged) {
        std::mem::swap(&mut stream.count, &mut stream.line);
    }
    let bytes = stream.record();
    let length = record.len().min(RECORD);
    record[..length].copy_from_slice(&bytes[..length]);
}

fn known(number: u16) -> bool {
    kind_of(number).is_some() || planted(Fault::OneMoreToken) && number == 169
}

fn spelling(number: u16) -> &'static [u8] {
    kind_of(number)
        .and_then(|kind| kind.as_str())
        .unwrap_or("")
        .as_bytes()
}

/// What a refusal for want of room must not change.
fn spoil_refused(record: &mut [u8], out: &mut [u8], needed: usize) {
    if planted(Fault::RefusalMarksRecord) {
        record[0] = 1;
    }
    if planted(Fault::RefusalMovesColumn) {
        let column = number(record, COLUMN) + needed as u64;
        record[COLUMN].copy_from_slice(&column.to_le_bytes());
    }
    if planted(Fault::RefusalWrites) {
        out.iter_mut().rev().take(1).for_each(|byte| *byte = b' ');
    }
}

/// The refusal of a value that is no text, or of one that is too long.
fn broken(value: &[u8]) -> Option<Refusal> {
    let longest = LONGEST + usize::from(planted(Fault::LongerValue));
    if value.len() > longest {
        return Some((NOT_UTF8, LONGEST as u32));
    }
    let error = std::str::from_utf8(value).err()?;
    let place = error.valid_up_to();
    if planted(Fault::SurrogateTaken) && value[place] == 0xED && value.len() == place + 3 {
        return None;
    }
    let (number, place) = how_broken(value, encoding::refusal(error));
    Some((number, place + u32::from(planted(Fault::PlaceOneLater))))
}

/// The refusal of a text or value, with the faults in telling how it is broken.
pub fn how_broken(bytes: &[u8], (number, place): Refusal) -> Refusal {
    let rest = &bytes[place as usize..];
    match number {
        CUT_OFF if planted(Fault::CutOffIsNotUtf8) => (NOT_UTF8, place),
        CUT_OFF if planted(Fault::PlaceOfLastByte) => (CUT_OFF, bytes.len() as u32 - 1),
        NOT_UTF8 if planted(Fault::OverlongIsCutOff) && rest == OVERLONG => (CUT_OFF, place),
        NOT_UTF8 if planted(Fault::MiddleIsCutOff) && left_off(rest) => (CUT_OFF, place),
        _ => (number, place),
    }
}

/// Whether a character begins, and the next one before it is whole.
fn left_off(rest: &[u8]) -> bool {
    let begins = |at: &usize| !(0x80..0xC0).contains(&rest[*at]);
    let next = (1..rest.len()).find(begins);
    next.is_some_and(|next| text_in(&rest[..next]) == Err((CUT_OFF, 0)))
}

/// What one token adds, and the bit after it.
pub fn written(spaced: bool, number: u16, value: Option<&[u8]>) -> (Vec<u8>, bool) {
    let mut bytes = Vec::new();
    let mut spaced = spaced;
    if !spaced && !tight(number) {
        bytes.push(b' ');
        spaced = !planted(Fault::SpaceLeavesBit);
    }
    if number == BLOB {
        bytes.extend(value.unwrap_or(b"X''"));
        let bit = spaced && !planted(Fault::BlobClearsBit);
        return (bytes, bit);
    }
    if !spelling(number).is_empty() {
        bytes.extend(spelling(number));
        spaced = matches!(number, LP | DOT | LBRACKET);
    }
    if let Some(value) = value {
        bytes.extend(value);
        let empty_counts = !planted(Fault::EmptyIsNotBlank) || !value.is_empty();
        spaced = empty_counts && value.iter().all(|&byte| blank(byte));
    }
    (bytes, spaced)
}

fn tight(number: u16) -> bool {
    match number {
        LBRACKET => !planted(Fault::SpaceBeforeBracket),
        COMMA | SEMI | RP | DOT | RBRACKET => true,
        _ => false,
    }
}

fn blank(byte: u8) -> bool {
    matches!(byte, 9 | 10 | 12 | 13 | 32) || planted(Fault::VerticalTabIsBlank) && byte == 11
}
