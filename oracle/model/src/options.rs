//! The options of a call: a number, each bit of which is a switch (R25).

use tokens::random::Random;

/// Bit 0: a CHECK source that is left open is refused (request vii).
pub const STRICT: u32 = 1;
/// Bit 1: the SQLite edition (request viii).
pub const SQLITE: u32 = 2;
/// The bits that mean something. All others are ignored.
pub const MEANT: u32 = STRICT | SQLITE;

/// Each way to set the bits that mean something.
pub const SETTINGS: [u32; 4] = [0, STRICT, SQLITE, MEANT];

/// Who is to read what is written.
#[derive(Clone, Copy, Debug, Default, PartialEq, Eq, PartialOrd, Ord)]
pub enum Edition {
    /// As the crate writes it.
    #[default]
    Crate,
    /// As SQLite reads it.
    Sqlite,
}

impl Edition {
    /// That of a call with these options.
    pub fn of(options: u32) -> Edition {
        match options & SQLITE {
            0 => Edition::Crate,
            _ => Edition::Sqlite,
        }
    }
}

/// None, some or all of the switches, half of the time with bits that mean nothing.
pub fn any(random: &mut Random) -> u32 {
    random.pick(&SETTINGS) | meaningless(random)
}

/// Bits that mean nothing: none, one of them, some or all.
pub fn meaningless(random: &mut Random) -> u32 {
    let bits = match random.below(8) {
        0..=3 => 0,
        4 | 5 => 1 << random.below(32),
        6 => random.word() as u32,
        _ => u32::MAX,
    };
    bits & !MEANT
}
