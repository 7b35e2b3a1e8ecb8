//! The token lines and the refusal of an answer in the replay format, and the arguments of `input( )` among the tokens.

/// Kinds of tokens.
pub const WORD: u32 = 1;
pub const STRING: u32 = 2;
pub const INTEGER: u32 = 3;
pub const TIME: u32 = 4;
pub const DURATION: u32 = 5;
pub const OPEN: u32 = 7;
pub const CLOSE: u32 = 8;
pub const COMMA: u32 = 11;
pub const POINT: u32 = 12;
pub const POINTS: u32 = 13;
pub const ASSIGN: u32 = 14;
pub const PLUS: u32 = 21;
pub const MINUS: u32 = 22;

const KEYS: [&str; 5] = ["dev", "inst", "group", "type", "adapter"];

/// A token line, with the part of the text that it names.
pub struct Token<'a> {
    pub kind: u32,
    pub number: u32,
    pub text: &'a str,
    /// Where that part begins, in bytes.
    pub start: usize,
    /// Line and column, as they stand in the answer.
    pub place: &'a str,
}

impl Token<'_> {
    pub fn is_word(&self, word: &str) -> bool {
        self.kind == WORD && self.text == word
    }
}

fn token<'a>(text: &'a str, line: &'a str) -> Option<Token<'a>> {
    let fields: Vec<&str> = line.strip_prefix("token ")?.splitn(5, ' ').collect();
    let [kind, number, start, length, place] = fields[..] else { return None };
    let (start, length): (usize, usize) = (start.parse().ok()?, length.parse().ok()?);
    Some(Token { kind: kind.parse().ok()?, number: number.parse().ok()?, text: text.get(start..start + length)?, start, place })
}

pub fn tokens<'a>(text: &'a str, answer: &'a str) -> impl Iterator<Item = Token<'a>> {
    answer.lines().filter_map(|line| token(text, line))
}

/// The number of the refusal, and `LINE COLUMN DETAIL`.
pub fn refusal(answer: &str) -> Option<(&str, &str)> {
    answer.lines().find_map(|line| line.strip_prefix("refused ")).and_then(|line| line.split_once(' '))
}

/// The index of the token that a refusal with this `LINE COLUMN DETAIL` stands at; that behind the last one for the end.
pub fn token_at(tokens: &[Token], place: &str) -> usize {
    let place = place.rsplit_once(' ').map_or(place, |(place, _)| place);
    tokens.iter().position(|token| token.place == place).unwrap_or(tokens.len())
}

/// Whether the token `at` is there and of this kind.
pub fn is(tokens: &[Token], at: usize, kind: u32) -> bool {
    tokens.get(at).is_some_and(|token| token.kind == kind)
}

/// The index of the `(` of the ARGS that the token `at`, or the end, stands in.
pub fn arguments(tokens: &[Token], at: usize) -> Option<usize> {
    let open = (0..at).rev().find(|&before| tokens[before].kind == OPEN)?;
    let input = open > 0 && tokens[open - 1].is_word("input");
    (input && !tokens[open..at].iter().any(|token| token.kind == CLOSE)).then_some(open)
}

/// The key at a token, if it is one of the five.
pub fn key<'a>(tokens: &[Token<'a>], at: usize) -> Option<&'a str> {
    let token = tokens.get(at).filter(|token| token.kind == WORD && KEYS.contains(&token.text))?;
    is(tokens, at + 1, ASSIGN).then_some(token.text)
}

/// How many arguments without a key stand between the `(` and the token `at`.
pub fn unnamed_before(tokens: &[Token], open: usize, at: usize) -> usize {
    let begins = |&index: &usize| matches!(tokens[index - 1].kind, OPEN | COMMA);
    (open + 1..at).filter(begins).filter(|&index| key(tokens, index).is_none()).count()
}

/// The sorts of a list that a case shows.
pub fn shown(list: &[(bool, &str)]) -> Vec<String> {
    list.iter().filter(|(is, _)| *is).map(|(_, sort)| sort.to_string()).collect()
}
