//! The stored calls of `crates/replay/stdin`, made through this crate and written in the replay format (docs/REPLAY.md) from
//! its types: the answers must be those of `crates/replay/stdout`, to the byte.

mod shown;

use std::path::Path;
use std::{fs, str};
use tergyosul::{Call, Party, Refusal, Written, ANSWER_WORDS, TOKEN_WORDS};

/// What every word holds before a call.
const UNTOUCHED: u32 = u32::MAX;

/// A call of this crate.
type Read<'a> = fn(&[u8], &[u8], Call<'a>, &mut [u32]) -> Result<tergyosul::Rule, tergyosul::Refusal>;

/// What every byte for a text or for rows holds before it is written.
const BLANK: u8 = 165;

/// A stored call, and a start of a chain: its number and its pieces.
enum Block<'a> {
    Read(Case<'a>),
    Join(Joining<'a>),
    Write(Writing<'a>),
    Rows(Conversion<'a>),
    Back(Writing<'a>),
    Next(&'a str, Vec<u8>),
}

struct Case<'a> {
    id: &'a str,
    read: Read<'a>,
    words: usize,
    text: &'a [u8],
    sheet: &'a [u8],
    call: Call<'a>,
}

impl Case<'_> {
    fn read(&self, words: &mut [u32]) -> Result<tergyosul::Rule, tergyosul::Refusal> {
        (self.read)(self.text, self.sheet, self.call, words)
    }
}

struct Joining<'a> {
    id: &'a str,
    sizes: [usize; 2],
    texts: [&'a [u8]; 2],
    sheet: &'a [u8],
    call: Call<'a>,
}

/// Lists that are written out, with the texts of their names, or converted back to rows.
struct Writing<'a> {
    id: &'a str,
    size: usize,
    party: Party,
    texts: [&'a [u8]; 2],
    sheet: &'a [u8],
    /// None where the layout of an answer cannot say them.
    lists: Option<[u32; ANSWER_WORDS]>,
}

struct Conversion<'a> {
    id: &'a str,
    party: Party,
    rows: &'a [u8],
    sheet: &'a [u8],
}

fn stored(name: &str) -> Vec<u8> {
    let path = Path::new(env!("CARGO_MANIFEST_DIR")).join("../../crates/replay").join(name);
    fs::read(&path).unwrap_or_else(|e| panic!("{}: {e}", path.display()))
}

/// `length` bytes and the LF behind them, taken from the front.
fn body<'a>(input: &mut &'a [u8], length: &str) -> &'a [u8] {
    let (body, rest) = input.split_at(length.parse().expect("a length"));
    *input = rest.strip_prefix(b"\n").expect("LF behind a body");
    body
}

/// The call of a habit.
fn read_by<'a>(habit: &str) -> Read<'a> {
    match habit {
        "rule" => tergyosul::read,
        "archive" => tergyosul::read_archive,
        "shop" => tergyosul::read_shop,
        _ => panic!("{habit}"),
    }
}

/// A line without its LF, taken from the front.
fn line<'a>(input: &mut &'a [u8]) -> &'a str {
    let end = input.iter().position(|&b| b == b'\n').expect("LF behind a line");
    str::from_utf8(body(input, &end.to_string())).expect("a line of text")
}

fn size(number: &str) -> usize {
    number.parse().expect("a size")
}

fn party(number: &str, primary: &str) -> Party {
    Party { number: number.parse().expect("a party"), primary: primary.parse().expect("an adapter") }
}

/// A line of lists, two counts and eight rows with a text each, laid out as an answer, and whether that says the texts: it has
/// one text for all conditions, and 0 stands for the first one there.
fn lists(line: &str) -> ([u32; ANSWER_WORDS], bool) {
    let numbers: Vec<u32> = line.split(' ').map(|number| number.parse().expect("a word")).collect();
    let (counts, rows) = numbers.split_at(2);
    let mut words = [0; ANSWER_WORDS];
    words[4..6].copy_from_slice(counts);
    let mut texts = [0; 8];
    for ((row, text), place) in rows.chunks_exact(13).zip(&mut texts).zip(words[12..].chunks_exact_mut(12)) {
        *text = row[0];
        place.copy_from_slice(&row[1..]);
    }
    words[7..11].copy_from_slice(&texts[..4]);
    words[11] = texts[4];
    // Of the rows in use.
    let [triggers, conditions] = [(&texts[..4], counts[0]), (&texts[4..], counts[1])].map(|(texts, count)| &texts[..count.min(4) as usize]);
    let is_said = triggers.iter().all(|&text| text != 0) && conditions.iter().all(|&text| text != 0 && text == words[11]);
    (words, is_said)
}

/// The block with this first line, whose bytes follow. A `case` is party 0's, with the sheet's own primary and no topics.
fn block<'a>(header: &[&'a str], input: &mut &'a [u8]) -> Block<'a> {
    match *header {
        ["case", id, words, text, sheet] => {
            let (text, sheet) = (body(input, text), body(input, sheet));
            let call = Party::of_sheet(sheet).into();
            Block::Read(Case { id, read: tergyosul::read_archive, words: size(words), text, sheet, call })
        }
        ["call", id, habit, words, number, primary, text, sheet, topics] => {
            let (text, sheet) = (body(input, text), body(input, sheet));
            let call = Call { party: party(number, primary), topics: body(input, topics) };
            Block::Read(Case { id, read: read_by(habit), words: size(words), text, sheet, call })
        }
        ["join", id, words, others, number, primary, first, second, sheet, topics] => {
            let (texts, sheet) = ([body(input, first), body(input, second)], body(input, sheet));
            let call = Call { party: party(number, primary), topics: body(input, topics) };
            Block::Join(Joining { id, sizes: [size(words), size(others)], texts, sheet, call })
        }
        ["write", id, bytes, number, primary, first, second, sheet] => {
            let (texts, sheet) = ([body(input, first), body(input, second)], body(input, sheet));
            let (words, is_said) = lists(line(input));
            let lists = is_said.then_some(words);
            Block::Write(Writing { id, size: size(bytes), party: party(number, primary), texts, sheet, lists })
        }
        ["rows", id, number, primary, rows, sheet] => {
            let (rows, sheet) = (body(input, rows), body(input, sheet));
            Block::Rows(Conversion { id, party: party(number, primary), rows, sheet })
        }
        ["back", id, bytes, number, primary, sheet] => {
            let sheet = body(input, sheet);
            // No text belongs to it.
            let (words, _) = lists(line(input));
            Block::Back(Writing { id, size: size(bytes), party: party(number, primary), texts: [b""; 2], sheet, lists: Some(words) })
        }
        ["next", id, _, _] => {
            let pieces = line(input).split_terminator(' ').map(|piece| piece.parse().expect("a piece")).collect();
            Block::Next(id, pieces)
        }
        _ => panic!("{header:?}"),
    }
}

fn blocks(mut input: &[u8]) -> Vec<Block<'_>> {
    let mut blocks = Vec::new();
    while !input.is_empty() {
        let header: Vec<&str> = line(&mut input).split(' ').collect();
        blocks.push(block(&header, &mut input));
    }
    blocks
}

/// The tokens whose records a call wrote.
fn written(words: &[u32]) -> impl Iterator<Item = tergyosul::Token> + '_ {
    tergyosul::tokens(words).take_while(|token| token.kind != UNTOUCHED)
}

/// The lines of the tokens, and whether the words behind their records are untouched.
fn buffer(words: &[u32]) -> String {
    let tokens: Vec<_> = written(words).collect();
    let mut out: String = tokens.iter().map(shown::token).collect();
    let kept = words[tokens.len() * tergyosul::RECORD_WORDS..].iter().all(|&word| word == UNTOUCHED);
    out += if kept { "buffer kept\n" } else { "buffer changed\n" };
    out
}

fn refusal(r: Refusal) -> String {
    format!("{} {} {} {}", r.number, r.line, r.column, r.detail)
}

/// The answer to a call, in the replay format; none to lists that the layout cannot say.
fn answer(block: &Block) -> Option<String> {
    match block {
        Block::Read(case) => Some(answer_to_case(case)),
        Block::Join(joining) => Some(answer_to_joining(joining)),
        Block::Write(writing) => writing.lists.map(|lists| {
            let Writing { texts, sheet, party, .. } = *writing;
            answer_to_writing(writing, |out| tergyosul::write(&lists, texts, sheet, party, out).map(str::as_bytes))
        }),
        Block::Rows(conversion) => Some(answer_to_rows(conversion)),
        Block::Back(writing) => writing.lists.map(|lists| {
            let Writing { sheet, party, .. } = *writing;
            answer_to_writing(writing, |out| tergyosul::write_rows(&lists, sheet, party, out))
        }),
        Block::Next(id, pieces) => Some(answer_to_start(id, pieces)),
    }
}

fn answer_to_case(case: &Case) -> String {
    let mut words = vec![UNTOUCHED; case.words];
    let said = match case.read(&mut words) {
        Err(r) => format!("refused {}\n", refusal(r)),
        Ok(rule) => shown::rule(&rule, case.text),
    };
    format!("case {}\n{}{said}", case.id, buffer(&words))
}

fn answer_to_joining(joining: &Joining) -> String {
    let Joining { id, sizes, texts: [first, second], sheet, call } = *joining;
    let [mut words, mut others] = sizes.map(|size| vec![UNTOUCHED; size]);
    let said = match tergyosul::join(first, second, sheet, call, &mut words, &mut others) {
        Err(r) => format!("refused {} {}\n", r.text.map_or(0, |text| text as u32 + 1), refusal(r.refusal)),
        Ok(joined) => shown::joined(&joined, first, second),
    };
    format!("case {id}\n{}{}{said}", buffer(&words), buffer(&others))
}

/// The rows come without a line for a buffer.
fn answer_to_rows(conversion: &Conversion) -> String {
    let Conversion { id, party, rows, sheet } = *conversion;
    let said = match tergyosul::convert_rows(rows, sheet, party) {
        Err(r) => format!("refused {}\n", refusal(r)),
        Ok(rule) => shown::rule(&rule, b""),
    };
    format!("case {id}\n{said}")
}

fn answer_to_writing(writing: &Writing, write: impl FnOnce(&mut [u8]) -> Result<&[u8], Refusal>) -> String {
    let Writing { id, size, .. } = *writing;
    let mut out = vec![BLANK; size];
    let (length, said) = match write(&mut out) {
        Err(r) => (0, format!("refused {}", refusal(r))),
        Ok(text) => (text.len(), text.iter().fold(format!("written {} x", text.len()), |line, byte| format!("{line}{byte:02x}"))),
    };
    let kept = out[length..].iter().all(|&byte| byte == BLANK);
    format!("case {id}\nbuffer {}\n{said}\n", if kept { "kept" } else { "changed" })
}

/// The answer to a start of a chain, in the replay format. This crate lends its own array for it.
fn answer_to_start(id: &str, pieces: &[u8]) -> String {
    let said = match tergyosul::next_chain(pieces) {
        Err(r) => format!("refused {}", refusal(r)),
        Ok(None) => "none".to_string(),
        Ok(Some(chain)) => chain.pieces().iter().fold("chain".to_string(), |line, piece| format!("{line} {piece}")),
    };
    format!("case {id}\nbuffer kept\n{said}\n")
}

/// The stored answers, one for each case.
fn answers(output: &str) -> Vec<String> {
    let mut answers: Vec<String> = Vec::new();
    for line in output.split_inclusive('\n') {
        match answers.last_mut() {
            Some(last) if !line.starts_with("case ") => *last += line,
            _ => answers.push(line.to_string()),
        }
    }
    answers
}

#[test]
fn every_stored_answer_is_given() {
    let input = stored("stdin");
    let output = String::from_utf8(stored("stdout")).expect("the answers are UTF-8");
    let (blocks, answers) = (blocks(&input), answers(&output));
    assert!(blocks.iter().filter(|block| matches!(block, Block::Read(_))).count() >= 1286);
    assert!(blocks.iter().filter(|block| matches!(block, Block::Next(..))).count() >= 100);
    assert!(blocks.iter().filter(|block| matches!(block, Block::Rows(_))).count() >= 100);
    assert!(blocks.iter().filter(|block| matches!(block, Block::Back(_))).count() >= 100);
    assert_eq!(blocks.len(), answers.len());
    for (block, expected) in blocks.iter().zip(&answers) {
        if let Some(answer) = answer(block) {
            assert_eq!(answer, *expected);
        }
    }
}

/// An accepted call: the lines of its entries, and what is written of it with its own texts, sheet and party.
struct Accepted<'a> {
    id: &'a str,
    sheet: &'a [u8],
    party: Party,
    shown: String,
    written: Result<Written, Refusal>,
}

fn accepted<'a>(block: &Block<'a>) -> Option<Accepted<'a>> {
    match block {
        Block::Read(case) => {
            let Case { id, text, sheet, call: Call { party, .. }, .. } = *case;
            let rule = case.read(&mut vec![0; case.words]).ok()?;
            Some(Accepted { id, sheet, party, shown: shown::rule(&rule, text), written: rule.written(text, sheet, party) })
        }
        Block::Join(joining) => {
            let Joining { id, sizes, texts: [first, second], sheet, call } = *joining;
            let [mut words, mut others] = sizes.map(|size| vec![0; size]);
            let joined = tergyosul::join(first, second, sheet, call, &mut words, &mut others).ok()?;
            let written = joined.written(first, second, sheet, call.party);
            Some(Accepted { id, sheet, party: call.party, shown: shown::joined(&joined, first, second), written })
        }
        Block::Write(_) | Block::Rows(_) | Block::Back(_) | Block::Next(..) => None,
    }
}

/// The lines of a rule's entries, without the texts in which their names stand.
fn entries(shown: &str) -> Vec<String> {
    shown.lines().map(|line| line.replace("T 1 ", "T ").replace("T 2 ", "T ").replace("C 1 ", "C ")).collect()
}

/// What is accepted is written, unless a name stands on an adapter that is not listed; and what is written has the same
/// entries, names by their bytes.
#[test]
fn what_is_accepted_is_written() {
    let input = stored("stdin");
    let mut count = 0;
    for Accepted { id, sheet, party, shown, written } in blocks(&input).iter().filter_map(accepted) {
        match written {
            Ok(text) => {
                let rule = tergyosul::read(text.as_bytes(), sheet, party, &mut [0; TOKEN_WORDS]).expect(id);
                assert_eq!(entries(&shown::rule(&rule, text.as_bytes())), entries(&shown), "case {id}");
                count += 1;
            }
            Err(refusal) => assert_eq!(refusal.number, 56, "case {id}"),
        }
    }
    assert!(count >= 400, "{count} are written");
}

/// Lexing alone gives the same records, and the same refusal if it is one of lexing. It knows no sheet, so no 3 and no 53.
#[test]
fn lexing_agrees() {
    let input = stored("stdin");
    for block in blocks(&input) {
        let Block::Read(case) = block else { continue };
        let mut words = vec![UNTOUCHED; case.words];
        let read = case.read(&mut words);
        let mut lexed_words = vec![UNTOUCHED; case.words];
        let lexed = tergyosul::lex(case.text, &mut lexed_words);
        match read {
            Err(refusal) if matches!(refusal.number, 3 | 53) => continue,
            Err(refusal) if refusal.number < 20 => assert_eq!(lexed, Err(refusal), "case {}", case.id),
            _ => assert_eq!(lexed, Ok(written(&words).count()), "case {}", case.id),
        }
        assert_eq!(words, lexed_words, "case {}", case.id);
    }
}

/// The calls share nothing, so those of several threads do not meet.
#[test]
fn calls_of_several_threads() {
    let input = stored("stdin");
    let output = String::from_utf8(stored("stdout")).expect("the answers are UTF-8");
    let (blocks, answers) = (blocks(&input), answers(&output));
    std::thread::scope(|scope| {
        for first in 0..4 {
            let (blocks, answers) = (&blocks, &answers);
            scope.spawn(move || {
                let from = first * blocks.len() / 4;
                for i in (from..blocks.len()).chain(0..from) {
                    if let Some(answer) = answer(&blocks[i]) {
                        assert_eq!(answer, answers[i]);
                    }
                }
            });
        }
    });
}
