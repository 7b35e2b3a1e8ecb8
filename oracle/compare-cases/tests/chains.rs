//! Document 02 §13: the second reader's list of chains, and what the readers accept.

use generate::chains::{accepted, rule, starts};
use second::chains;

/// The list is made without reading; both readers accept just its chains.
#[test]
fn the_readers_accept_the_list_and_nothing_else() {
    assert!(accepted(&second::answer) == chains());
    assert!(accepted(&supplied::answer) == chains());
}

/// And they read the same from each.
#[test]
fn the_readers_agree_on_each() {
    for chain in chains() {
        let rule = rule(chain);
        let answer = second::answer(&rule);
        assert_eq!(supplied::answer(&rule), answer);
        let conditions = chain.iter().filter(|&&piece| piece == cases::pieces("and")[0]).count() + 1;
        assert!(answer.contains(&format!("accepted 1 {conditions}\n")), "{answer}");
    }
}

/// A reader that takes a lamp 64 or a wrong word accepts more chains, and one that does not know a word accepts fewer.
#[test]
fn a_fault_is_found() {
    let with = |from: &'static str, to: &'static str| move |case: &cases::Case| {
        let text = String::from_utf8_lossy(&case.text).replace(from, to);
        second::answer(&cases::Case { text: text.into_bytes(), ..case.clone() })
    };
    assert!(accepted(&with("( 64 )", "( 63 )")).len() > 636);
    assert!(accepted(&with("sun is on", "sun is up")).len() > 636);
    assert!(accepted(&with("sunset", "sunsat")).len() < 636);
}

/// Of the stored starts some are listed, some are not, and one is the last.
#[test]
fn the_stored_starts() {
    let answers: Vec<String> = starts(chains()).iter().map(second::next).collect();
    let count = |word: &str| answers.iter().filter(|answer| answer.contains(word)).count();
    assert!(count("chain ") > 60 && count("refused 67 0 0 0") > 30, "{} {}", count("chain "), count("refused"));
    assert_eq!(count("none"), 1);
}
