//! What `answer` says of a text, taken apart.

use cases::Case;

/// Sheet S of document 01.
pub const S: &str = "primary,0\nadapter,0\nadapter,1\nlamp,0,4,Aisle\nlamp,1,4,Aisle\nlamp,1,7,Till\n";

pub fn case(text: &[u8], sheet: &[u8]) -> Case {
    Case::new(1, cases::LEAST_WORDS, text, sheet)
}

/// The lines of the answer behind `case 1`: first the records, without `token`, then the rest from `buffer kept` on.
pub fn told(case: &Case) -> (Vec<String>, Vec<String>) {
    let answer = supplied::answer(case);
    let lines = answer.strip_prefix("case 1\n").and_then(|rest| rest.strip_suffix('\n')).expect("whole lines");
    let (records, rest): (Vec<&str>, Vec<&str>) = lines.split('\n').partition(|line| line.starts_with("token "));
    let records = records.iter().map(|line| line["token ".len()..].to_owned()).collect();
    (records, rest.into_iter().map(str::to_owned).collect())
}

pub fn records(text: &str) -> Vec<String> {
    told(&case(text.as_bytes(), S.as_bytes())).0
}

/// What stands behind `buffer kept`, its lines parted by ` / `.
pub fn verdict_with(text: &[u8], sheet: &[u8]) -> String {
    let (_, rest) = told(&case(text, sheet));
    assert_eq!(rest[0], "buffer kept");
    rest[1..].join(" / ")
}

pub fn verdict(text: &str) -> String {
    verdict_with(text.as_bytes(), S.as_bytes())
}
