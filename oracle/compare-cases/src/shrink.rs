//! Making a case small while it still shows what it showed.

use cases::{Case, Conversion, Direction, Flat, Join, List, Row, Writing, ENTRY, LEAST_WORDS as USUAL_WORDS, ROWS};
use generate::roles::{roles, Role};
use std::collections::BTreeSet;

type Split = fn(&[u8]) -> Vec<&[u8]>;

/// How a text is cut into pieces, one way after the other.
const TEXT_SPLITS: [Split; 4] = [clauses, tokens, characters, bytes];

/// A case as small as dropping rows of the sheet, lent topics, clauses, tokens and bytes makes it, with `shows` true of it all the
/// way. `shows` is asked at most `tries` times. If it is not true of `case`, that comes back as it is.
pub fn shrink(case: &Case, tries: usize, shows: &mut dyn FnMut(&Case) -> bool) -> Case {
    let mut left = tries;
    let mut shows = |case: &Case| {
        left = left.saturating_sub(1);
        left > 0 && shows(case)
    };
    let mut best = case.clone();
    loop {
        let size = weight(&best);
        with_usual_words(&mut best, &mut shows);
        without_settings(&mut best, &mut shows);
        without_parties(&mut best, &mut shows);
        for split in [lines as Split, bytes] {
            best.sheet = drop_pieces(&best.sheet, split, &mut |sheet| shows(&Case { sheet: sheet.to_vec(), ..best.clone() }));
        }
        // A `case` line has none to drop, and stays one.
        for split in [lines as Split, bytes] {
            let topics = drop_pieces(best.topics(), split, &mut |topics| shows(&best.with_topics(topics)));
            best = if best.settings.is_some() { best.with_topics(topics) } else { best };
        }
        for split in TEXT_SPLITS {
            best.text = drop_pieces(&best.text, split, &mut |text| shows(&Case { text: text.to_vec(), ..best.clone() }));
        }
        if weight(&best) == size {
            return best;
        }
    }
}

/// Joins that are easier to read: with the usual buffers, of party 0, and on a sheet without others or without rows.
const PLAINER_JOINS: [fn(&Join) -> Join; 4] = [
    |join| Join { words: [USUAL_WORDS; 2], ..join.clone() },
    |join| Join { party: 0, primary: 0, ..join.clone() },
    |join| Join { party: 0, primary: 0, sheet: without_party_rows(&join.sheet), ..join.clone() },
    |join| Join { party: 0, primary: 0, sheet: b"primary,0\n".to_vec(), ..join.clone() },
];

/// The same for a join: both texts, the sheet and the topics.
pub fn shrink_join(join: &Join, tries: usize, shows: &mut dyn FnMut(&Join) -> bool) -> Join {
    let mut left = tries;
    let mut shows = |join: &Join| {
        left = left.saturating_sub(1);
        left > 0 && shows(join)
    };
    let weight = |join: &Join| join.texts[0].len() + join.texts[1].len() + join.sheet.len() + join.topics.len();
    let mut best = join.clone();
    loop {
        let size = weight(&best);
        for plainer in PLAINER_JOINS {
            let plainer = plainer(&best);
            if plainer != best && weight(&plainer) <= weight(&best) && shows(&plainer) {
                best = plainer;
            }
        }
        for nth in (0..CONDITIONS).rev() {
            let texts = [0, 1].map(|text| without_condition(&best.texts[text], nth));
            let shorter = Join { texts, ..best.clone() };
            if shorter != best && shows(&shorter) {
                best = shorter;
            }
        }
        for split in [lines as Split, bytes] {
            best.sheet = drop_pieces(&best.sheet, split, &mut |sheet| shows(&Join { sheet: sheet.to_vec(), ..best.clone() }));
            best.topics = drop_pieces(&best.topics, split, &mut |topics| shows(&Join { topics: topics.to_vec(), ..best.clone() }));
        }
        for (nth, split) in [0, 1].into_iter().flat_map(|nth| TEXT_SPLITS.map(|split| (nth, split))) {
            best.texts[nth] = drop_pieces(&best.texts[nth], split, &mut |text| {
                let mut shorter = best.clone();
                shorter.texts[nth] = text.to_vec();
                shows(&shorter)
            });
        }
        if weight(&best) == size {
            return best;
        }
    }
}

/// Lists that are easier to read: with the usual buffer, of party 0, and with a sheet without others or without rows.
const PLAINER_WRITINGS: [fn(&Writing) -> Writing; 4] = [
    |writing| Writing { size: USUAL_BYTES, ..writing.clone() },
    |writing| Writing { party: 0, primary: 0, ..writing.clone() },
    |writing| Writing { party: 0, primary: 0, sheet: without_party_rows(&writing.sheet), ..writing.clone() },
    |writing| Writing { party: 0, primary: 0, sheet: b"primary,0\n".to_vec(), ..writing.clone() },
];

const USUAL_BYTES: usize = 4_096;
const LONG: usize = 2_000;

/// The same for lists to be written: entries, words, both texts and the sheet.
pub fn shrink_writing(writing: &Writing, tries: usize, shows: &mut dyn FnMut(&Writing) -> bool) -> Writing {
    let mut left = tries;
    let mut shows = |writing: &Writing| {
        left = left.saturating_sub(1);
        left > 0 && shows(writing)
    };
    let weight = |writing: &Writing| writing.texts[0].len() + writing.texts[1].len() + writing.sheet.len() + words_in(&writing.lists);
    let mut best = writing.clone();
    loop {
        let size = weight(&best);
        for plainer in PLAINER_WRITINGS {
            let plainer = plainer(&best);
            if plainer != best && weight(&plainer) <= weight(&best) && shows(&plainer) {
                best = plainer;
            }
        }
        best.lists = without_entries(&best.lists, &mut |lists| shows(&Writing { lists: *lists, ..best.clone() }));
        let shorter = with_names_alone(&best);
        if shorter != best && weight(&shorter) <= weight(&best) && shows(&shorter) {
            best = shorter;
        }
        best.lists = with_plain_words(&best.lists, &mut |lists| shows(&Writing { lists: *lists, ..best.clone() }));
        for split in [lines as Split, bytes] {
            best.sheet = drop_pieces(&best.sheet, split, &mut |sheet| shows(&Writing { sheet: sheet.to_vec(), ..best.clone() }));
        }
        // A text that must be long stays so.
        for nth in [0, 1] {
            if best.texts[nth].len() > LONG {
                continue;
            }
            best.texts[nth] = drop_pieces(&best.texts[nth], bytes, &mut |text| {
                let mut shorter = best.clone();
                shorter.texts[nth] = text.to_vec();
                shows(&shorter)
            });
        }
        if weight(&best) == size {
            return best;
        }
    }
}

/// The lists with texts that have the names and nothing else, as far as these are inside their texts.
fn with_names_alone(writing: &Writing) -> Writing {
    let mut shorter = writing.clone();
    let mut texts = [Vec::new(), Vec::new()];
    for list in List::BOTH {
        for (row, used) in writing.lists.used(list).iter().enumerate() {
            let Some(nth) = [1, 2].iter().position(|from| *from == used.from) else { continue };
            for at in (0..ENTRY).filter(|&at| matches!(roles(list, &used.words)[at], Role::Start(_))) {
                let [start, length] = [used.words[at], used.words[at + 1]].map(|word| word as usize);
                let Some(name) = writing.texts[nth].get(start..start + length) else { return shorter };
                shorter.lists.rows_mut(list)[row].words[at] = texts[nth].len() as u32;
                texts[nth].extend_from_slice(name);
            }
        }
    }
    shorter.texts = texts;
    shorter
}

/// The words that are not 0.
fn words_in(lists: &Flat) -> usize {
    List::BOTH.iter().flat_map(|list| lists.rows(*list)).flat_map(|row| row.words).filter(|&word| word != 0).count()
}

/// The lists without the entries that need not be there.
fn without_entries(lists: &Flat, shows: &mut dyn FnMut(&Flat) -> bool) -> Flat {
    let mut best = *lists;
    for (list, at) in List::BOTH.into_iter().flat_map(|list| (0..ROWS).rev().map(move |at| (list, at))) {
        let fewer = without_entry(&best, list, at);
        if fewer != best && shows(&fewer) {
            best = fewer;
        }
    }
    best
}

/// The lists without the entry in this row, if it is in use; else the row empty.
fn without_entry(lists: &Flat, list: List, at: usize) -> Flat {
    let mut fewer = *lists;
    if at < lists.used(list).len() {
        fewer.counts[list as usize] -= 1;
        fewer.rows_mut(list)[at..].rotate_left(1);
        fewer.rows_mut(list)[ROWS - 1] = Row::default();
    } else {
        fewer.rows_mut(list)[at] = Row::default();
    }
    fewer
}

/// The lists with 0 or 1 in the place of words that may be these.
fn with_plain_words(lists: &Flat, shows: &mut dyn FnMut(&Flat) -> bool) -> Flat {
    let mut best = *lists;
    for (list, row, at) in List::BOTH.into_iter().flat_map(|list| (0..ROWS * ENTRY).map(move |at| (list, at / ENTRY, at % ENTRY))) {
        for word in [0, 1] {
            let mut plainer = best;
            plainer.rows_mut(list)[row].words[at] = word;
            if best.rows(list)[row].words[at] > word && shows(&plainer) {
                best = plainer;
            }
        }
    }
    best
}

/// Conversions that are easier to read, likewise.
const PLAINER_CONVERSIONS: [fn(&Conversion) -> Conversion; 4] = [
    |conversion| match &conversion.direction {
        Direction::Forward { .. } => conversion.clone(),
        Direction::Back { lists, .. } => back_with(conversion, USUAL_ROOM, lists),
    },
    |conversion| Conversion { party: 0, primary: 0, ..conversion.clone() },
    |conversion| Conversion { party: 0, primary: 0, sheet: without_party_rows(&conversion.sheet), ..conversion.clone() },
    |conversion| Conversion { party: 0, primary: 0, sheet: b"primary,0\n".to_vec(), ..conversion.clone() },
];

const USUAL_ROOM: usize = 512;

fn back_with(conversion: &Conversion, size: usize, lists: &Flat) -> Conversion {
    Conversion { direction: Direction::Back { size, lists: Box::new(*lists) }, ..conversion.clone() }
}

/// The same for a conversion: the rows or the lists, and the sheet.
pub fn shrink_conversion(conversion: &Conversion, tries: usize, shows: &mut dyn FnMut(&Conversion) -> bool) -> Conversion {
    let mut left = tries;
    let mut shows = |conversion: &Conversion| {
        left = left.saturating_sub(1);
        left > 0 && shows(conversion)
    };
    let weight = |conversion: &Conversion| conversion.sheet.len() + match &conversion.direction {
        Direction::Forward { rows } => rows.len(),
        Direction::Back { lists, .. } => words_in(lists),
    };
    let mut best = conversion.clone();
    loop {
        let size = weight(&best);
        for plainer in PLAINER_CONVERSIONS {
            let plainer = plainer(&best);
            if plainer != best && weight(&plainer) <= weight(&best) && shows(&plainer) {
                best = plainer;
            }
        }
        for (split, longest) in [(lines as Split, usize::MAX), (bytes, LONG)] {
            // A sheet that must be long stays so.
            if best.sheet.len() <= longest {
                best.sheet = drop_pieces(&best.sheet, split, &mut |sheet| shows(&Conversion { sheet: sheet.to_vec(), ..best.clone() }));
            }
            if let Direction::Forward { rows } = &best.direction {
                let rows = drop_pieces(rows, split, &mut |rows| shows(&best.of_rows(rows)));
                best = best.of_rows(rows);
            }
        }
        for name in names(&best.sheet) {
            let shorter = with_short_name(&best, &name);
            if shorter != best && shows(&shorter) {
                best = shorter;
            }
        }
        if let Direction::Back { size, lists } = &best.direction {
            let fewer = without_entries(lists, &mut |lists| shows(&back_with(&best, *size, lists)));
            let plainer = with_plain_words(&fewer, &mut |lists| shows(&back_with(&best, *size, lists)));
            best = back_with(&best, *size, &plainer);
        }
        if weight(&best) == size {
            return best;
        }
    }
}

/// The names of a sheet's rows, the last fields of four.
fn names(sheet: &[u8]) -> BTreeSet<Vec<u8>> {
    cases::lines(sheet).into_iter().filter_map(|line| cases::fields(line).get(3).map(|name| name.to_vec())).collect()
}

/// A conversion in which a name of more than one byte is a letter, in the sheet and in the rows.
fn with_short_name(conversion: &Conversion, name: &[u8]) -> Conversion {
    let known = names(&conversion.sheet);
    let letter = (b'a'..=b'z').find(|letter| !known.contains(&[*letter][..]));
    let Some(letter) = letter.filter(|_| name.len() > 1) else { return conversion.clone() };
    let renamed = |bytes: &[u8], from: &[u8], to: &[u8]| lines(bytes).iter().flat_map(|line| {
        let at = line.windows(from.len()).position(|part| part == from);
        at.map_or(line.to_vec(), |at| [&line[..at], to, &line[at + from.len()..]].concat())
    }).collect::<Vec<u8>>();
    let short = [b",", &[letter][..]].concat();
    let sheet = renamed(&conversion.sheet, &[b",", name].concat(), &short);
    match &conversion.direction {
        Direction::Forward { rows } => {
            let rows = renamed(rows, &[b",", name, b","].concat(), &[&short[..], b","].concat());
            Conversion { sheet, ..conversion.of_rows(rows) }
        }
        Direction::Back { .. } => Conversion { sheet, ..conversion.clone() },
    }
}

/// The most conditions of a text.
const CONDITIONS: usize = 4;

/// A text without its condition `nth`, if it has one, so that two texts can lose the same one.
fn without_condition(text: &[u8], nth: usize) -> Vec<u8> {
    let clauses = clauses(text);
    let word = |clause: &[u8]| tokens(clause).first().map_or(0, |token| token.len());
    let first = clauses.iter().position(|clause| clause[..word(clause)].trim_ascii_end() == b"if").unwrap_or(clauses.len());
    let (front, conditions) = clauses.split_at(first);
    let left = conditions.iter().enumerate().filter(|(at, _)| *at != nth).map(|(_, clause)| &clause[word(clause)..]);
    let words = [&b"if "[..]].into_iter().chain(std::iter::repeat(&b"and "[..]));
    words.zip(left).fold(front.concat(), |text, (word, clause)| [&text[..], word, clause].concat())
}

/// A text as small as dropping its pieces makes it, in the same way.
pub fn shrink_text(text: &[u8], tries: usize, shows: &mut dyn FnMut(&[u8]) -> bool) -> Vec<u8> {
    let mut left = tries;
    let mut best = text.to_vec();
    loop {
        let size = best.len();
        for split in TEXT_SPLITS {
            best = drop_pieces(&best, split, &mut |text| {
                left = left.saturating_sub(1);
                left > 0 && shows(text)
            });
        }
        if best.len() == size {
            return best;
        }
    }
}

/// A sheet on which all adapters are party 0's.
fn without_party_rows(sheet: &[u8]) -> Vec<u8> {
    lines(sheet).into_iter().filter(|row| !row.starts_with(b"party,")).collect::<Vec<_>>().concat()
}

fn weight(case: &Case) -> usize {
    case.text.len() + case.sheet.len() + case.topics().len()
}

/// A case that does without another buffer is easier to read.
fn with_usual_words(best: &mut Case, shows: &mut dyn FnMut(&Case) -> bool) {
    let usual = Case { words: USUAL_WORDS, ..best.clone() };
    if best.words != USUAL_WORDS && shows(&usual) {
        *best = usual;
    }
}

/// So is one that need not be a `call` line.
fn without_settings(best: &mut Case, shows: &mut dyn FnMut(&Case) -> bool) {
    let plain = Case { settings: None, ..best.clone() };
    if best.settings.is_some() && shows(&plain) {
        *best = plain;
    }
}

/// And one in which there is one party only, so that it need not be a `call` line.
fn without_parties(best: &mut Case, shows: &mut dyn FnMut(&Case) -> bool) {
    let plain = Case { settings: None, sheet: without_party_rows(&best.sheet), ..best.clone() };
    if best.settings.is_some() && shows(&plain) {
        *best = plain;
    }
}

/// Drops runs of pieces, first half of them at once, then a quarter, down to single ones.
fn drop_pieces(whole: &[u8], split: Split, shows: &mut dyn FnMut(&[u8]) -> bool) -> Vec<u8> {
    let mut pieces = split(whole);
    let mut run = pieces.len().div_ceil(2);
    while run > 0 {
        let mut at = 0;
        while at < pieces.len() {
            let end = (at + run).min(pieces.len());
            let shorter = [&pieces[..at], &pieces[end..]].concat();
            if shows(&shorter.concat()) {
                pieces = shorter;
            } else {
                at = end;
            }
        }
        run /= 2;
    }
    pieces.concat()
}

fn lines(whole: &[u8]) -> Vec<&[u8]> {
    whole.split_inclusive(|&b| b == b'\n').collect()
}

fn bytes(whole: &[u8]) -> Vec<&[u8]> {
    whole.chunks(1).collect()
}

/// Characters; a byte that belongs to none is a piece too.
fn characters(whole: &[u8]) -> Vec<&[u8]> {
    let mut pieces = Vec::new();
    for chunk in whole.utf8_chunks() {
        let mut rest = chunk.valid();
        while let Some(c) = rest.chars().next() {
            let (piece, behind) = rest.split_at(c.len_utf8());
            pieces.push(piece.as_bytes());
            rest = behind;
        }
        pieces.extend(chunk.invalid().chunks(1));
    }
    pieces
}

/// What stands before the first `when`, `if` or `and`, and each of these with what stands behind it.
fn clauses(text: &[u8]) -> Vec<&[u8]> {
    let mut pieces = Vec::new();
    let (mut from, mut at) = (0, 0);
    for token in tokens(text) {
        if at > from && matches!(token.trim_ascii_end(), b"when" | b"if" | b"and") {
            pieces.push(&text[from..at]);
            from = at;
        }
        at += token.len();
    }
    pieces.push(&text[from..]);
    pieces
}

/// Words, numbers, strings and single other bytes, each with the white space behind it.
fn tokens(text: &[u8]) -> Vec<&[u8]> {
    let mut pieces = Vec::new();
    let mut rest = text;
    while !rest.is_empty() {
        let (piece, behind) = rest.split_at(token_length(rest));
        pieces.push(piece);
        rest = behind;
    }
    pieces
}

fn token_length(rest: &[u8]) -> usize {
    let word = |b: &u8| b.is_ascii_alphanumeric() || *b == b'_';
    let mut length = 1;
    if rest[0] == b'"' {
        length += rest[1..].iter().position(|&b| b == b'"').map_or(rest.len() - 1, |at| at + 1);
    } else if word(&rest[0]) {
        length = rest.iter().take_while(|b| word(b)).count();
    }
    length + rest[length..].iter().take_while(|b| b.is_ascii_whitespace()).count()
}
