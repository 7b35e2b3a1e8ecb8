//! Every short chain of conditions: the whole list, what the reader says of each, and starts that are none.

use std::path::Path;
use tergyosul::{chains, next_chain, Party, Refusal, TOKEN_WORDS, VOCABULARY};

/// The list is the one that the program `rules` prints, to the byte.
#[test]
fn the_list_is_the_stored_one() {
    let path = Path::new(env!("CARGO_MANIFEST_DIR")).join("../../tests/rules/chains/stdout");
    let stored = std::fs::read_to_string(&path).unwrap_or_else(|e| panic!("{}: {e}", path.display()));
    let listed: String = chains().map(|chain| format!("{chain}\n")).collect();
    assert_eq!(listed, stored);
    assert_eq!(chains().count(), 636);
    assert_eq!(chains().last().and_then(|last| next_chain(last.pieces()).expect("it is listed")), None);
}

#[test]
fn each_comes_behind_those_before_it() {
    let listed: Vec<_> = chains().collect();
    let key = |i: usize| (listed[i].pieces().len(), listed[i].pieces());
    assert!((1..listed.len()).all(|i| key(i - 1) < key(i)));
}

/// Behind `if` each is accepted, with as many conditions as it joins.
#[test]
fn each_is_read() {
    let mut words = [0; TOKEN_WORDS];
    for chain in chains() {
        let text = format!("when controller starts if {chain}");
        let rule = tergyosul::read(text.as_bytes(), b"primary,0\n", Party { number: 0, primary: 0 }, &mut words).expect(&text);
        let joined = chain.pieces().iter().filter(|&&piece| VOCABULARY[usize::from(piece)] == "and").count();
        assert_eq!(rule.conditions().len(), joined + 1, "{text}");
    }
}

#[test]
fn other_starts_are_refused() {
    let refusal = Refusal { number: 67, line: 0, column: 0, detail: 0 };
    let last = chains().last().expect("the list has chains");
    let longer = [last.pieces(), &[12]].concat();
    let five = [1, 3, 7, 12].repeat(5);
    for start in [&[0][..], &[23], &[255], &[1, 3], &[1, 3, 7, 12], &[1, 3, 5], &[1, 3, 7, 0], &longer, &five[..19], &[0; 300]] {
        assert_eq!(next_chain(start), Err(refusal), "{start:?}");
    }
}

#[test]
fn a_chain_is_shown_as_written() {
    let first = chains().next().expect("the list has chains");
    assert_eq!((first.pieces(), format!("{first}"), format!("{first:?}")), (&[1, 3, 7][..], "sun is up".into(), "Chain(sun is up)".into()));
}
