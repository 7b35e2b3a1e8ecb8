//! What the tests share: cases, and the parts of an answer.
#![allow(dead_code)]

use cases::Case;

/// Sheet S of document 01.
pub const S: &str = "primary,0\nadapter,0\nadapter,1\nlamp,0,4,Aisle\nlamp,1,4,Aisle\nlamp,1,7,Till\n";

/// A sheet with a row of each kind, on a primary that is not 0.
pub const ALL: &str = "primary,2\nadapter,2\nadapter,3\nlamp,2,5,Lamp\ngroup,3,15,Group\ndevice,2,63,Device\n\
                       input,3,9,Input\nlamp,2,6,Twice\nlamp,2,7,Twice\ninput,2,1,Both\ninput,3,2,Both\n";

pub fn case(text: &[u8], sheet: &[u8]) -> Case {
    Case::new(1, cases::LEAST_WORDS, text, sheet)
}

/// The lines of an answer.
pub fn lines(case: &Case) -> Vec<String> {
    second::answer(case).lines().map(str::to_string).collect()
}

/// The token lines of an answer, without the word `token`.
pub fn tokens(case: &Case) -> Vec<String> {
    lines(case).iter().filter_map(|line| line.strip_prefix("token ")).map(str::to_string).collect()
}

/// What stands behind the line `buffer kept`, which must be there.
pub fn verdict_of(case: &Case) -> String {
    let lines = lines(case);
    let at = lines.iter().position(|line| line == "buffer kept").expect("buffer kept");
    lines[at + 1..].join("\n")
}

/// The verdict on a text with the sheet `ALL`.
pub fn verdict(text: &str) -> String {
    verdict_of(&case(text.as_bytes(), ALL.as_bytes()))
}

pub fn verdict_with(text: &str, sheet: &str) -> String {
    verdict_of(&case(text.as_bytes(), sheet.as_bytes()))
}

/// Asserts the refusal `NUMBER LINE COLUMN DETAIL` of each text, with the sheet `ALL`.
pub fn refused(table: &[(&str, &str)]) {
    for (text, refusal) in table {
        assert_eq!(verdict(text), format!("refused {refusal}"), "{text}");
    }
}

/// The same for conditions: each text is put behind `when http trigger if `, which has 21 characters.
pub fn condition_refused(table: &[(&str, &str)]) {
    for (text, refusal) in table {
        let text = format!("when http trigger if {text}");
        assert_eq!(verdict(&text), format!("refused {refusal}"), "{text}");
    }
}

/// Asserts the last record of each accepted text, with the sheet `ALL`.
pub fn last_record(table: &[(&str, &str)]) {
    for (text, record) in table {
        let verdict = verdict(text);
        assert!(verdict.starts_with("accepted "), "{text}: {verdict}");
        assert_eq!(verdict.lines().last(), Some(*record), "{text}");
    }
}
