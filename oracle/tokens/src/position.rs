//! Where in a text we are: its lines and the bytes since the last newline, both from 0 (request ix).

pub const NEWLINE: u8 = 0x0A;

/// The place where the next byte is written.
#[derive(Clone, Copy, Debug, Default, PartialEq, Eq)]
pub struct Position {
    pub line: u64,
    pub column: u64,
}

impl Position {
    /// Behind a whole text: how many newlines it has, and how many bytes behind the last of them.
    pub fn behind(text: &[u8]) -> Position {
        let lines = || text.split(|&byte| byte == NEWLINE);
        let last = lines().next_back().unwrap_or_default();
        Position {
            line: lines().count() as u64 - 1,
            column: last.len() as u64,
        }
    }

    /// Behind bytes that are written here, whatever stands before: a newline among them begins the column anew.
    pub fn after(self, added: &[u8]) -> Position {
        let Position { line, column } = Position::behind(added);
        let goes_on = if line == 0 { self.column } else { 0 };
        Position {
            line: self.line + line,
            column: goes_on + column,
        }
    }
}
