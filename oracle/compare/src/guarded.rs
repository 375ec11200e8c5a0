//! Lent bytes with known bytes around them, or beside a page that nobody may touch.

use crate::pages::Pages;
use tokens::random::Random;

const GUARD: usize = 48;
/// Starts are moved by less than this.
pub const SHIFTS: usize = 16;

/// What stands around a lent part.
#[derive(Clone, Copy, Debug)]
pub enum Fence {
    /// Known bytes. The number moves the start, so that it stands at addresses of every kind.
    Bytes(usize),
    /// A page that nobody may touch ends just before the part.
    PageBefore,
    /// Such a page begins just behind the part.
    PageAfter,
}

impl Fence {
    /// The fence with the part at an address where values of this type may stand.
    pub fn aligned<T>(self) -> Fence {
        match self {
            Fence::Bytes(shift) => Fence::Bytes(shift / align_of::<T>() * align_of::<T>()),
            page => page,
        }
    }
}

/// The fences of the three parts that a call is lent, at most.
pub type Fences = [Fence; 3];

/// How tree, text and output are lent: half of the trees and texts end where nobody may read on.
pub fn fences(random: &mut Random) -> Fences {
    let known = |random: &mut Random| Fence::Bytes(random.below(SHIFTS));
    let fence = |random: &mut Random| match random.below(4) {
        0 => known(random),
        1 => Fence::PageBefore,
        _ => Fence::PageAfter,
    };
    [fence(random), fence(random), known(random)]
}

/// How any part is lent, an output too: half of them end where nobody may touch. In the self-test between known bytes always:
/// its faulty calls write beyond what is lent, and the known bytes are to tell.
pub fn any_fence(random: &mut Random) -> Fence {
    let drawn = match random.below(4) {
        0 => Fence::Bytes(random.below(SHIFTS)),
        1 => Fence::PageBefore,
        _ => Fence::PageAfter,
    };
    match cfg!(feature = "selftest") {
        true => Fence::Bytes(random.below(SHIFTS)),
        false => drawn,
    }
}

pub struct Guarded {
    memory: Memory,
    before: usize,
    length: usize,
}

enum Memory {
    Heap(Vec<u8>),
    Pages(Pages),
}

impl Guarded {
    pub fn new(inner: &[u8], fence: Fence) -> Guarded {
        let length = inner.len();
        let (memory, before) = match fence {
            Fence::Bytes(shift) => {
                let before = GUARD + shift;
                (Memory::Heap(vec![0; before + length + GUARD]), before)
            }
            Fence::PageBefore => (Memory::Pages(Pages::of(length)), 0),
            Fence::PageAfter => {
                let pages = Pages::of(length);
                let before = pages.bytes().len() - length;
                (Memory::Pages(pages), before)
            }
        };
        let mut guarded = Guarded {
            memory,
            before,
            length,
        };
        guarded.fill(inner);
        guarded
    }

    /// The bytes themselves, and the known ones around them.
    fn fill(&mut self, inner: &[u8]) {
        let (before, length) = (self.before, self.length);
        let places = self.guards();
        let bytes = self.memory.bytes_mut();
        bytes[before..before + length].copy_from_slice(inner);
        for place in places {
            bytes[place] = guard_byte(place);
        }
    }

    /// The places of the known bytes: as many as there is memory for.
    fn guards(&self) -> impl Iterator<Item = usize> {
        let first = self.before.saturating_sub(GUARD + SHIFTS);
        let after = self.before + self.length;
        let last = self.memory.bytes().len().min(after + GUARD);
        (first..self.before).chain(after..last)
    }

    pub fn start(&mut self) -> *mut u8 {
        self.memory.bytes_mut()[self.before..].as_mut_ptr()
    }

    pub fn inner(&self) -> &[u8] {
        &self.memory.bytes()[self.before..self.before + self.length]
    }

    pub fn guards_whole(&self) -> bool {
        let bytes = self.memory.bytes();
        self.guards().all(|place| bytes[place] == guard_byte(place))
    }
}

impl Memory {
    fn bytes(&self) -> &[u8] {
        match self {
            Memory::Heap(bytes) => bytes,
            Memory::Pages(pages) => pages.bytes(),
        }
    }

    fn bytes_mut(&mut self) -> &mut [u8] {
        match self {
            Memory::Heap(bytes) => bytes,
            Memory::Pages(pages) => pages.bytes_mut(),
        }
    }
}

fn guard_byte(place: usize) -> u8 {
    0xA5 ^ place as u8
}

#[cfg(test)]
mod tests {
    use super::*;

    const FENCES: [Fence; 4] = [
        Fence::Bytes(0),
        Fence::Bytes(15),
        Fence::PageBefore,
        Fence::PageAfter,
    ];

    #[test]
    fn a_changed_byte_beside_the_part_is_seen() {
        for fence in FENCES {
            let mut guarded = Guarded::new(b"lent", fence);
            assert!(guarded.guards_whole());
            assert_eq!(guarded.inner(), b"lent");
            let places: Vec<usize> = guarded.guards().collect();
            assert!(places.len() >= GUARD);
            for place in places {
                guarded.memory.bytes_mut()[place] ^= 1;
                assert!(!guarded.guards_whole());
                guarded.memory.bytes_mut()[place] ^= 1;
            }
        }
    }
}
