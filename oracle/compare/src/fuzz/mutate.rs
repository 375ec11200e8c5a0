//! Bytes changed without a look at what they mean.

use model::record::SIZE;
use tokens::random::Random;

/// Bytes at which something begins or ends.
const EDGES: [u8; 12] = [
    0x00, 0x01, 0x0F, 0x10, 0x40, 0x41, 0x7F, 0x80, 0xC0, 0xE0, 0xF0, 0xFF,
];
/// Most bytes that are put in at once.
const MOST: usize = 40;

const IN_PLACE: [fn(&mut Random, &mut [u8]); 6] = [bit, byte, word, zeroed, swapped, copied];
const OF_LENGTH: [fn(&mut Random, &mut Vec<u8>); 5] = [taken_out, put_in, doubled, cut, longer];

/// One to four changes.
pub fn mutate(random: &mut Random, bytes: &mut Vec<u8>) {
    for _ in 0..random.between(1, 4) {
        match random.one_in(2) {
            true => random.pick(&IN_PLACE)(random, bytes),
            false => random.pick(&OF_LENGTH)(random, bytes),
        }
    }
}

/// A stretch of at least one byte, unless there is none.
fn stretch(random: &mut Random, length: usize) -> std::ops::Range<usize> {
    if length == 0 {
        return 0..0;
    }
    let start = random.below(length);
    let most = (length - start).min(MOST);
    start..start + random.between(1, most)
}

fn bit(random: &mut Random, bytes: &mut [u8]) {
    if !bytes.is_empty() {
        let at = random.below(bytes.len());
        bytes[at] ^= 1 << random.below(8);
    }
}

fn byte(random: &mut Random, bytes: &mut [u8]) {
    if !bytes.is_empty() {
        let at = random.below(bytes.len());
        bytes[at] = match random.one_in(2) {
            true => random.byte(),
            false => random.pick(&EDGES),
        };
    }
}

/// A number of two bytes, a little more or less.
fn word(random: &mut Random, bytes: &mut [u8]) {
    if bytes.len() >= 2 {
        let at = random.below(bytes.len() / 2) * 2;
        let number = u16::from_le_bytes([bytes[at], bytes[at + 1]]);
        let by = random.between(0, 8) as u16;
        let near = number.wrapping_add(by).wrapping_sub(4);
        bytes[at..at + 2].copy_from_slice(&near.to_le_bytes());
    }
}

fn taken_out(random: &mut Random, bytes: &mut Vec<u8>) {
    let stretch = stretch(random, bytes.len());
    bytes.drain(stretch);
}

fn put_in(random: &mut Random, bytes: &mut Vec<u8>) {
    let at = random.between(0, bytes.len());
    let count = random.between(1, MOST);
    let new = random.bytes(count);
    bytes.splice(at..at, new);
}

/// A stretch that stands there twice.
fn doubled(random: &mut Random, bytes: &mut Vec<u8>) {
    let stretch = stretch(random, bytes.len());
    let copy = bytes[stretch.clone()].to_vec();
    bytes.splice(stretch.end..stretch.end, copy);
}

fn cut(random: &mut Random, bytes: &mut Vec<u8>) {
    let keep = random.between(0, bytes.len());
    bytes.truncate(keep);
}

fn zeroed(random: &mut Random, bytes: &mut [u8]) {
    let stretch = stretch(random, bytes.len());
    bytes[stretch].fill(0);
}

/// Two places of a record's length, with each other's bytes.
fn swapped(random: &mut Random, bytes: &mut [u8]) {
    let records = bytes.len() / SIZE;
    if records > 1 {
        let (one, other) = (random.below(records) * SIZE, random.below(records) * SIZE);
        for at in 0..SIZE {
            bytes.swap(one + at, other + at);
        }
    }
}

/// A record over another.
fn copied(random: &mut Random, bytes: &mut [u8]) {
    let records = bytes.len() / SIZE;
    if records > 0 {
        let (from, to) = (random.below(records) * SIZE, random.below(records) * SIZE);
        bytes.copy_within(from..from + SIZE, to);
    }
}

/// Filled up with zeros to a whole number of records, or with a record more.
fn longer(_: &mut Random, bytes: &mut Vec<u8>) {
    let length = (bytes.len() / SIZE + 1) * SIZE;
    bytes.resize(length, 0);
}
