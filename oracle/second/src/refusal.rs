//! Places in a text, and refusals: number, line, column, detail.

/// A line and a column, both counted from 1 in characters; 0:0 where document 01 gives no other place. An earlier place is less.
#[derive(Debug, Clone, Copy, PartialEq, Eq, PartialOrd, Ord)]
pub struct Place {
    pub line: u32,
    pub column: u32,
}

impl Place {
    pub const NONE: Place = Place { line: 0, column: 0 };
    pub const FIRST: Place = Place { line: 1, column: 1 };

    /// The place behind the character `c` that stands here. "Only LF starts a line."
    pub fn after(self, c: char) -> Place {
        if c == '\n' {
            Place { line: self.line + 1, column: 1 }
        } else {
            Place { line: self.line, column: self.column + 1 }
        }
    }
}

#[derive(Debug, Clone, Copy, PartialEq, Eq)]
pub struct Refusal {
    pub number: u32,
    pub place: Place,
    pub detail: u32,
}

impl Refusal {
    /// "Detail is 0 unless said."
    pub fn new(number: u32, place: Place) -> Refusal {
        Refusal { number, place, detail: 0 }
    }

    pub fn with_detail(number: u32, place: Place, detail: u32) -> Refusal {
        Refusal { number, place, detail }
    }
}
