//! Places in a text: line and column, from 1, counted in characters; only LF starts a line.

use crate::lexer::Pos;

/// The text, or the place of the first character that is not well-formed UTF-8.
pub fn utf8(bytes: &[u8]) -> Result<&str, Pos> {
    std::str::from_utf8(bytes).map_err(|error| {
        let good = &bytes[..error.valid_up_to()];
        end(std::str::from_utf8(good).expect("the part before the first fault is well formed"))
    })
}

/// The place behind the last character.
pub fn end(text: &str) -> Pos {
    text.chars().fold(Pos { line: 1, column: 1 }, after)
}

/// The byte offsets at which the places stand. They must stand there, in the text's order.
pub fn offsets(text: &str, places: impl IntoIterator<Item = Pos>) -> Vec<usize> {
    let mut here = Pos { line: 1, column: 1 };
    let mut chars = text.chars();
    let mut found = Vec::new();
    for place in places {
        while here != place {
            let c = chars.next().unwrap_or_else(|| panic!("no character of the text stands at {place:?}"));
            here = after(here, c);
        }
        found.push(text.len() - chars.as_str().len());
    }
    found
}

fn after(pos: Pos, c: char) -> Pos {
    if c == '\n' {
        Pos { line: pos.line + 1, column: 1 }
    } else {
        Pos { line: pos.line, column: pos.column + 1 }
    }
}
