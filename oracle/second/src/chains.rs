//! Every short chain of conditions (document 02 §13), made from document 01's forms as far as the vocabulary can write them, without
//! reading any.

use cases::{pieces, Start, MOST_PIECES};
use std::sync::OnceLock;

/// "every accepted chain of one to four conditions joined by `and`"
const MOST_CONDITIONS: usize = 4;

/// Every way to take one of each part, joined by spaces; an empty one leaves no space.
fn each(parts: &[&[String]]) -> Vec<String> {
    parts.iter().fold(vec![String::new()], |fronts, part| {
        let with = |front: &String| part.iter().map(|word| format!("{front} {word}").trim().to_string()).collect::<Vec<_>>();
        fronts.iter().flat_map(with).collect()
    })
}

fn words<const N: usize>(words: [&str; N]) -> Vec<String> {
    words.map(str::to_string).to_vec()
}

/// The conditions of document 01 that the vocabulary can write. It has no TIME, no DURATION, no name and no comma, one comparison, and of
/// the readings a lamp's level.
fn conditions() -> Vec<String> {
    let one = |word: &str| words([word]);
    // "R is `(` name or id, perhaps `, adapter = A` `)`. Ids: lamp and device 0 to 63"
    let lamp = each(&[&one("lamp ("), &words(["0", "63"]), &one(")")]);
    // "SOLAR: sunrise or sunset, perhaps + or - DURATION."
    let bound = words(["sunrise", "sunset"]);
    // "VALUE: an integer with perhaps one sign, or a reading with perhaps + or - an integer."
    let (integer, sign) = (words(["0", "63", "64"]), words(["+", "-"]));
    let signed = each(&[&sign, &integer]);
    let reading = each(&[&lamp, &one(". level")]);
    let value = [integer, signed.clone(), each(&[&reading, &[one(""), signed].concat()])].concat();
    [
        each(&[&one("sun is"), &words(["up", "down"])]),
        each(&[&one("time in"), &bound, &one(".."), &bound]),
        each(&[&lamp, &one("is"), &words(["on", "off"])]),
        each(&[&lamp, &one(". level =="), &value]),
    ]
    .concat()
}

/// The whole list. "Shorter ones come first, then by the vocabulary's order token by token. Each stands in the list exactly once".
pub fn chains() -> &'static [Vec<u8>] {
    static CHAINS: OnceLock<Vec<Vec<u8>>> = OnceLock::new();
    CHAINS.get_or_init(|| {
        let conditions = conditions();
        let mut joined = words([""]);
        let mut chains = Vec::new();
        for _ in 0..MOST_CONDITIONS {
            joined = each(&[&joined, &conditions]);
            joined.retain(|chain| pieces(chain).len() <= MOST_PIECES);
            chains.extend(joined.iter().map(|chain| pieces(chain)));
            joined.iter_mut().for_each(|chain| chain.push_str(" and"));
        }
        chains.sort_by(|a, b| (a.len(), a).cmp(&(b.len(), b)));
        chains.dedup();
        chains
    })
}

/// What the generator gives for a start, in the replay format. "Given no tokens, the generator yields the first; given one listed, the
/// next, or that none follows. It refuses a start that has tokens and is not itself in the list with 67, at 0:0."
pub fn next(start: &Start) -> String {
    let at = match start.pieces[..] {
        [] => Some(0),
        _ => chains().iter().position(|chain| *chain == start.pieces).map(|place| place + 1),
    };
    let said = match at.map(|at| chains().get(at)) {
        None => "refused 67 0 0 0".to_string(),
        Some(None) => "none".to_string(),
        Some(Some(chain)) => chain.iter().fold("chain".to_string(), |line, piece| format!("{line} {piece}")),
    };
    format!("case {}\nbuffer kept\n{said}\n", start.id)
}
