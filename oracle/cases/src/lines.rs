//! The lines of a name sheet and their fields, for the parts that make sheets and count what they show. Each reader has its own.

/// The lines of a sheet without their ends: LF, which the last may lack, and one CR directly before it or before the end of the
/// sheet (document 02 §8).
pub fn lines(sheet: &[u8]) -> Vec<&[u8]> {
    let lines = sheet.strip_suffix(b"\n").unwrap_or(sheet).split(|&b| b == b'\n');
    lines.map(|line| line.strip_suffix(b"\r").unwrap_or(line)).collect()
}

/// The fields of a line; the fourth is a name, which has commas too.
pub fn fields(line: &[u8]) -> Vec<&[u8]> {
    line.splitn(4, |&b| b == b',').collect()
}

#[cfg(test)]
mod tests {
    use super::*;

    #[test]
    fn one_cr_belongs_to_the_line_end() {
        let joined = |sheet: &str| lines(sheet.as_bytes()).iter().map(|line| line.escape_ascii().to_string()).collect::<Vec<_>>().join("|");
        for (sheet, wanted) in [
            ("", ""), ("\n", ""), ("\r", ""), ("\r\n", ""), ("a", "a"), ("a\n", "a"), ("a\r", "a"), ("a\r\n", "a"), ("a\n\r", "a|"), ("a\r\r\n", "a\\r"),
            ("a\r\nb\nc\r", "a|b|c"), ("a\n\n", "a|"), ("a\rb\r\n\r\nc", "a\\rb||c"),
        ] {
            assert_eq!(joined(sheet), wanted, "{sheet:?}");
        }
    }

    #[test]
    fn a_name_has_its_commas() {
        assert_eq!(fields(b"lamp,0,1,Aisle 3, cold,"), [&b"lamp"[..], b"0", b"1", b"Aisle 3, cold,"]);
        assert_eq!((fields(b"adapter,1,"), fields(b"")), (vec![&b"adapter"[..], b"1", b""], vec![&b""[..]]));
    }
}
