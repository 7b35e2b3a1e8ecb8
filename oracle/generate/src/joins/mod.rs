//! Document 02 §3: two texts to be joined. Most are rules with triggers and conditions in common, each in its own words and layout: equal, equal
//! but for one value, repeated, in another order; the others are copies with a fault, texts of any kind, and texts about topics.

mod entry;
mod scope;
mod wording;
mod wrong;

use crate::grammar::quoted;
use crate::rng::Rng;
use crate::sheet::{self, Sheet};
use crate::spell::{spell, Token};
use crate::topics::fits;
use crate::vocabulary::{DAYS, LENT_ODDITIES, TOPICS};
use crate::{damage, large, parties, spoil_sheet, text, words, LONGEST_TEXT};
use cases::{Habit, Join, LEAST_WORDS, MOST_BYTES, MOST_TOKENS};
use entry::{same_length, Entry};
pub use scope::{named_rows, Row, Scope};
use std::borrow::Cow;
use wording::Wording;
pub use wrong::WRONG_TEXTS;

/// The most triggers, and the most conditions, of a text.
const MOST: usize = 4;
/// The most different topics, lent ones with them.
const MOST_TOPICS: usize = 8;

/// A rule, without the words for it.
#[derive(Debug, Clone)]
pub struct Rule {
    pub triggers: Vec<Entry>,
    pub conditions: Vec<Entry>,
}

/// The join `index` of the sequence that `seed` gives.
pub fn join(seed: u64, index: u64) -> Join {
    let mut rng = Rng::new(seed ^ JOINS, index);
    let rng = &mut rng;
    let (mut sheet, mut join) = without_texts(rng, index);
    let scope = Scope::of(rng, &sheet.bytes, join.party, join.primary, &sheet.topics);
    join.texts = if rng.once_in(12) { about_topics(rng, &scope, &mut join.topics) } else { pair(rng, &sheet, &scope) };
    join.words = [words(rng), words(rng)];
    if rng.once_in(3) {
        spoil_sheet(rng, &mut sheet);
    }
    if rng.once_in(60) {
        pile_up(rng, &mut join.words, &mut join.texts, &mut sheet);
    }
    join.texts.iter_mut().for_each(|text| text.truncate(MOST_BYTES));
    sheet.bytes.truncate(MOST_BYTES);
    Join { sheet: sheet.bytes, ..join }
}

/// Keeps joins and cases of one seed apart.
const JOINS: u64 = 0x6a6f_696e;

/// A sheet, and a join on it that has no texts yet: of a party, with a primary, and now and then with lent topics.
fn without_texts(rng: &mut Rng, index: u64) -> (Sheet, Join) {
    let mut sheet = sheet::good(rng, 2);
    let settings = parties::settings(rng, Habit::Rule, &sheet);
    let topics = if rng.once_in(4) { settings.topics } else { Vec::new() };
    sheet.party = settings.party;
    sheet.lend(&topics);
    let join = Join {
        id: index,
        words: [LEAST_WORDS; 2],
        party: settings.party,
        primary: settings.primary,
        texts: [Vec::new(), Vec::new()],
        sheet: sheet.bytes.clone(),
        topics,
    };
    (sheet, join)
}

/// A rule twice, each time in its own words, or else a rule and the same with one trigger or condition replaced by one beside it. Refused for topics
/// or the primary at most, if not for that condition.
pub fn join_of_a_rule(seed: u64, index: u64, beside: bool) -> Join {
    let mut rng = Rng::new(seed ^ JOINS, index);
    let rng = &mut rng;
    let (sheet, join) = without_texts(rng, index);
    let scope = Scope::of(rng, &sheet.bytes, join.party, join.primary, &sheet.topics);
    let first = Rule::any(rng, &scope);
    let mut second = first.clone();
    if beside {
        let list = if second.conditions.is_empty() || rng.once_in(2) { &mut second.triggers } else { &mut second.conditions };
        let at = rng.below(list.len());
        list[at] = list[at].near(rng, &scope);
    }
    let mut plainly = |rule: &Rule, gap: &[u8]| rule.tokens(rng, &scope).join(gap);
    Join { texts: [plainly(&first, b" "), plainly(&second, b" # a\n\t")], ..join }
}

/// Several things wrong at once, in either text, for the order of the first questions.
fn pile_up(rng: &mut Rng, words: &mut [usize; 2], texts: &mut [Vec<u8>; 2], sheet: &mut Sheet) {
    for (text, words) in texts.iter_mut().zip(words) {
        if rng.once_in(6) {
            text.extend_from_slice(b" @");
        }
        if rng.once_in(5) {
            damage::ill_formed(rng, text);
        }
        if rng.once_in(6) {
            text.resize(text.len().max(LONGEST_TEXT + 1), b' ');
        }
        if rng.once_in(5) {
            *words = rng.pick(&[0, LEAST_WORDS - 1]);
        }
    }
    if rng.once_in(4) {
        let which = rng.below(sheet::BREAKS);
        sheet.bytes = sheet::broken(rng, which);
    }
}

/// Two texts of one of the sorts.
fn pair(rng: &mut Rng, sheet: &Sheet, scope: &Scope) -> [Vec<u8>; 2] {
    let first = Rule::any(rng, scope);
    match rng.below(60) {
        0..=4 => twins(rng, scope, &first),
        5..=7 => moved(rng, scope, &first),
        8..=10 => copies(rng, scope, &first),
        11..=17 => damaged(rng, scope, &first),
        18..=22 => {
            let good = first.text(rng, scope);
            let other = if rng.once_in(16) { large::text(rng, sheet) } else { text(rng, sheet) };
            either_way(rng, [good, other])
        }
        23 => [text(rng, sheet), text(rng, sheet)],
        24..=27 => {
            let other = if rng.once_in(4) { rng.pick(WRONG_TEXTS).into() } else { first.text(rng, scope) };
            let wrong = rng.pick(WRONG_TEXTS).into();
            either_way(rng, [other, wrong])
        }
        28 | 29 if rng.once_in(30) => [full(rng), full(rng)],
        28 | 29 => [first.text(rng, scope), first.text(rng, scope)],
        30..=33 => about_a_value(rng, scope, first),
        _ => {
            let second = first.beside(rng, scope);
            [first.text(rng, scope), second.text(rng, scope)]
        }
    }
}

fn either_way(rng: &mut Rng, [one, two]: [Vec<u8>; 2]) -> [Vec<u8>; 2] {
    if rng.once_in(2) { [one, two] } else { [two, one] }
}

/// A rule twice, in which one condition has a value, with another one beside that in the second.
fn about_a_value(rng: &mut Rng, scope: &Scope, mut first: Rule) -> [Vec<u8>; 2] {
    let condition = Entry::with_value(rng, scope);
    let at = rng.within(0, first.conditions.len());
    first.conditions.insert(at, condition);
    first.conditions.truncate(MOST);
    let mut second = first.beside(rng, scope);
    second.conditions = first.conditions.clone();
    if let Some(condition) = second.conditions.get_mut(at) {
        *condition = condition.near(rng, scope);
    }
    [first.text(rng, scope), second.text(rng, scope)]
}

/// The same text twice, but with another name, topic or text of as many bytes in the second, which stands at the same place.
fn twins(rng: &mut Rng, scope: &Scope, rule: &Rule) -> [Vec<u8>; 2] {
    let tokens = rule.tokens(rng, scope);
    let mut others = tokens.clone();
    let strings: Vec<usize> = (0..others.len()).filter(|&at| others[at].len() > 2 && others[at][0] == b'"').collect();
    if !strings.is_empty() {
        let at = rng.pick(&strings);
        if let Some(string) = changed(rng, &others[at]) {
            others[at] = string;
        }
    }
    if rng.once_in(3) {
        swap_strings(rng, &mut others);
    }
    let layout = rng.next();
    [spell(&mut Rng::new(layout, 0), &tokens), spell(&mut Rng::new(layout, 0), &others)]
}

/// A quoted string with one character replaced by another of as many bytes.
fn changed(rng: &mut Rng, token: &Token) -> Option<Token> {
    let mut characters: Vec<char> = std::str::from_utf8(&token[1..token.len() - 1]).ok()?.chars().collect();
    let at = rng.below(characters.len());
    characters[at] = same_length(rng, characters[at])?;
    Some(quoted(String::from_iter(characters).as_bytes()))
}

/// Two strings change places.
fn swap_strings(rng: &mut Rng, tokens: &mut [Token]) {
    let strings: Vec<usize> = (0..tokens.len()).filter(|&at| tokens[at][0] == b'"').collect();
    if strings.len() > 1 {
        tokens.swap(rng.pick(&strings), rng.pick(&strings));
    }
}

/// The same text twice, and something before one of them, so that everything stands further behind in it.
fn moved(rng: &mut Rng, scope: &Scope, rule: &Rule) -> [Vec<u8>; 2] {
    let text = rule.text(rng, scope);
    let before = rng.pick(&[" ", "\n", "# a\n", "# \u{e9}\n\n", "# when http trigger\n", "\u{3000}", "#\"\n", "\r\n\t"]);
    let room = LONGEST_TEXT.saturating_sub(before.len() + text.len());
    let far = if rng.once_in(6) { rng.pick(&[255, 256, 300, 4_096, room, room]).min(room) } else { 0 };
    let moved = [before.as_bytes(), &b" ".repeat(far), &text].concat();
    either_way(rng, [text, moved])
}

/// A text of as many tokens as there may be, with one day in the set of a trigger, or two.
fn full(rng: &mut Rng) -> Vec<u8> {
    const BEFORE: &str = "when http trigger when at 7:05 on ";
    let mut days = [rng.pick(&DAYS[..2]); (MOST_TOKENS - 7).div_ceil(2)];
    if rng.once_in(2) {
        days[rng.below(days.len())] = DAYS[2];
    }
    format!("{BEFORE}{}", days.join(",")).into_bytes()
}

/// A text and a copy with a fault: a token or a byte, in either.
fn copies(rng: &mut Rng, scope: &Scope, rule: &Rule) -> [Vec<u8>; 2] {
    let tokens = rule.tokens(rng, scope);
    let mut others = tokens.clone();
    let layout = rng.next();
    let bytes = rng.once_in(2);
    if !bytes {
        damage::tokens(rng, &mut others);
    }
    let [text, mut copy] = [tokens, others].map(|tokens| spell(&mut Rng::new(layout, 0), &tokens));
    if bytes {
        damage::bytes(rng, &mut copy);
    }
    either_way(rng, [text, copy])
}

/// Two rules with a fault in one of the texts, or in both.
fn damaged(rng: &mut Rng, scope: &Scope, first: &Rule) -> [Vec<u8>; 2] {
    let second = first.beside(rng, scope);
    let which = rng.pick(&[[true, false], [false, true], [false, true], [true, true]]);
    let [one, two] = [first, &second];
    [one.perhaps_damaged(rng, scope, which[0]), two.perhaps_damaged(rng, scope, which[1])]
}

impl Rule {
    pub fn any(rng: &mut Rng, scope: &Scope) -> Rule {
        let triggers = rng.pick(&[1, 1, 2, 2, 2, 3, 3, 4, 4]);
        let conditions = rng.pick(&[0, 0, 0, 1, 1, 2, 2, 3, 4]);
        Rule {
            triggers: entries(rng, scope, triggers, Entry::trigger, &[]),
            conditions: entries(rng, scope, conditions, Entry::condition, &[]),
        }
    }

    /// A rule to be joined with this one: mostly with the same conditions, and with some of its triggers.
    pub fn beside(&self, rng: &mut Rng, scope: &Scope) -> Rule {
        let count = rng.pick(&[1, 1, 1, 2, 2, 2, 3, 3, 4, 4]);
        let triggers = entries(rng, scope, count, Entry::trigger, &self.triggers);
        let conditions = if rng.once_in(4) { self.other_conditions(rng, scope) } else { self.conditions.clone() };
        Rule { triggers, conditions }
    }

    /// The conditions with one difference: an entry, the order, the number, how often one stands there; or none at all, or others.
    fn other_conditions(&self, rng: &mut Rng, scope: &Scope) -> Vec<Entry> {
        let mut list = self.conditions.clone();
        if list.is_empty() {
            let count = rng.within(1, MOST);
            return entries(rng, scope, count, Entry::condition, &[]);
        }
        let (at, other) = (rng.below(list.len()), rng.below(list.len()));
        match rng.below(24) {
            0..=13 => list[at] = list[at].near(rng, scope),
            14 | 15 => list.swap(at, other),
            16 => list.rotate_left(at),
            17 | 18 => drop(list.remove(at)),
            19 => { let again = list[at].clone(); list.insert(other, again) }
            20 => list[at] = list[other].clone(),
            21 => { let more = Entry::condition(rng, scope); list.insert(other, more) }
            22 => list.clear(),
            _ => list = entries(rng, scope, MOST, Entry::condition, &self.conditions),
        }
        list.truncate(MOST);
        list
    }

    /// The tokens of a text that says this.
    fn tokens(&self, rng: &mut Rng, scope: &Scope) -> Vec<Token> {
        let mut wording = Wording { rng, scope, out: Vec::with_capacity(64) };
        let before = |word: &'static str| Cow::Borrowed(word.as_bytes());
        for trigger in &self.triggers {
            wording.out.push(before("when"));
            wording.entry(trigger);
        }
        for (at, condition) in self.conditions.iter().enumerate() {
            wording.out.push(before(if at == 0 { "if" } else { "and" }));
            wording.entry(condition);
        }
        wording.out
    }

    pub fn text(&self, rng: &mut Rng, scope: &Scope) -> Vec<u8> {
        let tokens = self.tokens(rng, scope);
        spell(rng, &tokens)
    }

    fn perhaps_damaged(&self, rng: &mut Rng, scope: &Scope, is: bool) -> Vec<u8> {
        let mut tokens = self.tokens(rng, scope);
        let sort = if is { rng.below(8) } else { 8 };
        if sort < 5 {
            damage::tokens(rng, &mut tokens);
        }
        let mut text = spell(rng, &tokens);
        match sort {
            5 | 6 => damage::bytes(rng, &mut text),
            7 => damage::ill_formed(rng, &mut text),
            _ => {}
        }
        text
    }
}

/// So many entries: new ones, those of another list or beside them, and earlier ones again or beside them.
fn entries(rng: &mut Rng, scope: &Scope, count: usize, new: fn(&mut Rng, &Scope) -> Entry, others: &[Entry]) -> Vec<Entry> {
    let mut list: Vec<Entry> = Vec::new();
    for _ in 0..count {
        let known = if others.is_empty() || !list.is_empty() && rng.once_in(3) { &list } else { others };
        let entry = match (known.is_empty(), rng.below(8)) {
            (false, 0..=3) => known[rng.below(known.len())].clone(),
            (false, 4 | 5) => { let beside = rng.below(known.len()); known[beside].near(rng, scope) }
            _ => new(rng, scope),
        };
        list.push(entry);
    }
    list
}

/// Two texts whose triggers are mostly topics: lent ones, new ones, and in the second those of the first; all of them about eight different ones.
fn about_topics(rng: &mut Rng, scope: &Scope, lent: &mut Vec<u8>) -> [Vec<u8>; 2] {
    let mut pool: Vec<Vec<u8>> = TOPICS.iter().map(|topic| topic.as_bytes().to_vec()).collect();
    for at in 1..pool.len() {
        pool.swap(at, rng.below(at + 1));
    }
    let count = rng.pick(&[0, 3, 4, 4, 5, 5, 5, 6, 6, 6, 7, 7, 7, 7, 8, 8, 8, 9, 10]);
    let (known, new) = pool.split_at(count);
    *lent = lines(rng, known);
    let room = MOST_TOPICS.saturating_sub(count).min(MOST) + usize::from(rng.once_in(12));
    let first = topics(rng, known, &[], &new[..room]);
    let second = topics(rng, known, &first, &new[room..]);
    [first, second].map(|topics| {
        let mut triggers: Vec<Entry> = topics.into_iter().map(Entry::mqtt).collect();
        if triggers.len() < MOST && rng.once_in(4) {
            let at = rng.within(0, triggers.len());
            triggers.insert(at, Entry::trigger(rng, scope));
        }
        let rule = Rule { triggers, conditions: Vec::new() };
        let fault = rng.once_in(16);
        rule.perhaps_damaged(rng, scope, fault)
    })
}

/// One to four topics: some that are lent, some of an earlier text, some new ones, and some again.
fn topics(rng: &mut Rng, lent: &[Vec<u8>], earlier: &[Vec<u8>], new: &[Vec<u8>]) -> Vec<Vec<u8>> {
    let mut found: Vec<Vec<u8>> = Vec::new();
    let few = if rng.once_in(2) { new } else { &new[..new.len().min(1)] };
    for _ in 0..rng.within(1, MOST) {
        let from = match rng.below(8) {
            0 | 1 => lent,
            2 | 3 => earlier,
            4 => found.as_slice(),
            _ => few,
        };
        let from = [from, few, lent, earlier].into_iter().find(|list| !list.is_empty());
        found.push(from.map_or_else(|| b"a".to_vec(), |list| list[rng.below(list.len())].clone()));
    }
    found.retain(|topic| fits(topic));
    found
}

/// Lent lines with these topics: with repeats, empty lines, a last LF, or one that no text could name in the place of one of them.
fn lines(rng: &mut Rng, topics: &[Vec<u8>]) -> Vec<u8> {
    let mut lines = topics.to_vec();
    if lines.is_empty() {
        return rng.pick(&["", "", "\n"]).into();
    }
    match rng.below(8) {
        0 => { let again = lines[rng.below(lines.len())].clone(); lines.push(again) }
        1 => lines.insert(rng.below(topics.len()), Vec::new()),
        2 => { let at = rng.below(lines.len()); lines[at] = rng.pick(LENT_ODDITIES).to_vec() }
        _ => {}
    }
    let mut bytes = lines.join(&b'\n');
    if rng.once_in(2) {
        bytes.push(b'\n');
    }
    bytes
}
