//! The 16 bytes of a record.

use crate::grammar::{TEXT, TOKEN};

pub const SIZE: usize = 16;
pub const MARK: [u8; 2] = [0x53, 0x4E];

/// Most bytes of a tree, and of a text.
pub const MOST_BYTES: usize = 65_536;
pub const MOST_RECORDS: usize = MOST_BYTES / SIZE;

/// In a TOKEN's flags: a value is present.
pub const VALUE_PRESENT: u16 = 1 << 15;

#[derive(Clone, Copy, Debug, PartialEq)]
pub struct Record {
    pub mark: [u8; 2],
    pub kind: u16,
    pub flags: u16,
    pub children: u16,
    pub start: u32,
    pub length: u32,
}

impl Record {
    /// With no flags and no text part.
    pub fn new(kind: u16, children: u16) -> Record {
        Record {
            mark: MARK,
            kind,
            flags: 0,
            children,
            start: 0,
            length: 0,
        }
    }

    pub fn flagged(kind: u16, flags: u16, children: u16) -> Record {
        Record {
            flags,
            ..Record::new(kind, children)
        }
    }

    pub fn part(kind: u16, flags: u16, start: u32, length: u32) -> Record {
        Record {
            flags,
            start,
            length,
            ..Record::new(kind, 0)
        }
    }

    pub fn number(kind: u16, number: i64) -> Record {
        let mut record = Record::new(kind, 0);
        record.set_as_number(number);
        record
    }

    /// Whether it names a part of the text: a TEXT does, and a TOKEN with a value.
    pub fn names_part(&self) -> bool {
        self.kind == TEXT || self.kind == TOKEN && self.flags & VALUE_PRESENT != 0
    }

    /// Bytes 8 to 15 as one signed number.
    pub fn as_number(&self) -> i64 {
        (u64::from(self.length) << 32 | u64::from(self.start)) as i64
    }

    pub fn set_as_number(&mut self, number: i64) {
        self.start = number as u32;
        self.length = (number as u64 >> 32) as u32;
    }

    /// The record at an index, unless it is past the end.
    pub fn read(tree: &[u8], index: usize) -> Option<Record> {
        let bytes = tree.get(index * SIZE..(index + 1) * SIZE)?;
        let short = |at: usize| u16::from_le_bytes([bytes[at], bytes[at + 1]]);
        let long = |at: usize| u32::from(short(at)) | u32::from(short(at + 2)) << 16;
        Some(Record {
            mark: [bytes[0], bytes[1]],
            kind: short(2),
            flags: short(4),
            children: short(6),
            start: long(8),
            length: long(12),
        })
    }

    pub fn bytes(&self) -> [u8; SIZE] {
        let mut bytes = [0; SIZE];
        bytes[0..2].copy_from_slice(&self.mark);
        bytes[2..4].copy_from_slice(&self.kind.to_le_bytes());
        bytes[4..6].copy_from_slice(&self.flags.to_le_bytes());
        bytes[6..8].copy_from_slice(&self.children.to_le_bytes());
        bytes[8..12].copy_from_slice(&self.start.to_le_bytes());
        bytes[12..16].copy_from_slice(&self.length.to_le_bytes());
        bytes
    }

    /// Writes the record over the one at an index.
    pub fn write(&self, tree: &mut [u8], index: usize) {
        tree[index * SIZE..(index + 1) * SIZE].copy_from_slice(&self.bytes());
    }
}
