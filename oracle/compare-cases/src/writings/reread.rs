//! A written text, and what is read from it: "Reading the text with the same sheet, party and primary yields the same lists, names by bytes."

use cases::{Case, Flat, List, Writing};
use generate::roles::{roles, Role};

/// The bytes that an answer says were written.
pub fn bytes(answer: &str) -> Option<Vec<u8>> {
    let hex = answer.lines().last()?.strip_prefix("written ")?.split_once(" x")?.1;
    let digit = |b: u8| char::from(b).to_digit(16).map(|digit| digit as u8);
    hex.as_bytes().chunks(2).map(|two| Some(digit(two[0])? * 16 + digit(*two.get(1)?)?)).collect()
}

/// The call that reads it.
pub fn call(writing: &Writing, answer: &str) -> Option<Case> {
    bytes(answer).map(|text| writing.call(text))
}

/// Both lists, a line for each entry: its words, with the bytes in the place of each range. FROM is left out.
pub fn shown(lists: &Flat, texts: [&[u8]; 2]) -> String {
    let mut lines = String::new();
    for (list, letter) in List::BOTH.into_iter().zip(["T", "C"]) {
        for row in lists.used(list) {
            let text = texts.get((row.from as usize).wrapping_sub(1)).copied().unwrap_or_default();
            let mut fields = vec![letter.to_string()];
            for (at, role) in roles(list, &row.words).into_iter().enumerate() {
                fields.push(match role {
                    Role::Start(_) => {
                        let [start, length] = [row.words[at], row.words[at + 1]].map(|word| word as usize);
                        format!("\"{}\"", text.get(start..start + length).unwrap_or_default().escape_ascii())
                    }
                    _ => row.words[at].to_string(),
                });
            }
            lines += &(fields.join(" ") + "\n");
        }
    }
    lines
}

/// The answer itself if the text that was written gives the same lists, else with what it gives. Nothing where no text was written.
pub fn reread(writing: &Writing, answer: &str, read: &dyn Fn(&Case) -> Option<Flat>) -> Option<String> {
    let call = call(writing, answer)?;
    let own = shown(&writing.lists, [&writing.texts[0], &writing.texts[1]]);
    let back = read(&call).map_or("refused\n".to_string(), |lists| shown(&lists, [&call.text, b""]));
    Some(if own == back { answer.to_string() } else { format!("{answer}of\n{own}read back\n{back}") })
}
