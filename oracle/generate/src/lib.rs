//! Cases for the comparison of readers: texts and name sheets from document 01's grammar and the requests of document 02
//! that have landed, good, slightly wrong and broken, each made from a seed and an index alone.

mod arguments;
pub mod chains;
mod conversions;
mod damage;
mod days;
pub mod durations;
mod exhaustive;
mod grammar;
mod isolation;
mod joins;
mod large;
mod line_ends;
mod parties;
mod profile;
mod reflow;
mod repeats;
mod requests;
mod respell;
mod rng;
mod sheet;
mod spell;
pub mod topics;
pub mod vocabulary;
mod writings;

#[cfg(test)]
mod tests;

pub use conversions::conversion;
pub use exhaustive::{exhaustive, exhaustive_case, exhaustive_count};
pub use isolation::beside;
pub use joins::{join, join_of_a_rule, WRONG_TEXTS};
pub use large::landmarks;
pub use reflow::{gaps, joins, reflowed, span};
pub use requests::{requests, stored_conversions, stored_joins, stored_writings, LAYOUTS};
pub use respell::respelled;
pub use rng::Rng;
pub use writings::{roles, writing, Reads};

use cases::{Case, Habit, FORMER_LEAST_WORDS, LEAST_WORDS, MOST_BYTES, MOST_WORDS};
use grammar::{Walk, NEVER, OFTEN, SELDOM};
use sheet::Sheet;
use spell::{spell, Token};

/// The longest text that it takes, in bytes.
const LONGEST_TEXT: usize = 16_384;

/// The case `index` of the sequence that `seed` gives: a default call, a shop call, or an archive call, on one line or the other. The
/// party and the primary of a `call` line are chosen for its sheet, and it often lends topics; the sheet of a `case` line seldom has
/// party rows.
pub fn case(seed: u64, index: u64) -> Case {
    let mut rng = Rng::new(seed, index);
    let habit = rng.pick(&[None, Some(Habit::Archive), Some(Habit::Rule), Some(Habit::Shop)]);
    let mut sheet = sheet::good(&mut rng, if habit.is_some() { 2 } else { 6 });
    let settings = habit.map(|habit| parties::settings(&mut rng, habit, &sheet));
    if let Some(settings) = &settings {
        sheet.party = settings.party;
        sheet.shop = settings.habit == Habit::Shop;
        sheet.lend(&settings.topics);
    }
    let mut text = text(&mut rng, &sheet);
    spoil_sheet(&mut rng, &mut sheet);
    let mut words = words(&mut rng);
    if rng.once_in(250) {
        pile_up(&mut rng, &mut words, &mut text, &mut sheet);
    }
    text.truncate(MOST_BYTES);
    sheet.bytes.truncate(MOST_BYTES);
    Case { settings, ..Case::new(index, words, text, sheet.bytes) }
}

/// Several things wrong at once, for the order of the first four questions.
fn pile_up(rng: &mut Rng, words: &mut usize, text: &mut Vec<u8>, sheet: &mut Sheet) {
    if rng.once_in(2) {
        damage::ill_formed(rng, text);
    }
    if rng.once_in(4) {
        text.resize(text.len().max(LONGEST_TEXT + 1), b' ');
    }
    if rng.once_in(2) {
        *words = LEAST_WORDS - 1;
    }
    if rng.once_in(2) {
        let which = rng.below(sheet::BREAKS);
        sheet.bytes = sheet::broken(rng, which);
    }
}

/// Mostly the least buffer that is enough; the least of document 01 is well past it.
fn words(rng: &mut Rng) -> usize {
    match rng.below(200) {
        0 => 0,
        1 => LEAST_WORDS - 1,
        2 => rng.within(0, LEAST_WORDS),
        3 | 4 => MOST_WORDS,
        5 | 6 => LEAST_WORDS + 1,
        7 | 8 => FORMER_LEAST_WORDS - 1,
        9..=18 => FORMER_LEAST_WORDS,
        19..=23 => rng.within(LEAST_WORDS, MOST_WORDS),
        _ => LEAST_WORDS,
    }
}

/// Leaves most sheets as they are; the others are broken in one of the listed ways, or get a byte, a line or a line end changed, or
/// are as long as a sheet may be.
fn spoil_sheet(rng: &mut Rng, sheet: &mut Sheet) {
    match rng.below(400) {
        0..=15 => {
            let which = rng.below(sheet::BREAKS);
            sheet.bytes = sheet::broken(rng, which);
        }
        16..=21 => damage::bytes(rng, &mut sheet.bytes),
        22 => sheet.bytes = sheet::longest(rng),
        23..=26 => damage::lines(rng, &mut sheet.bytes),
        27..=30 => line_ends::damage(rng, &mut sheet.bytes),
        _ => {}
    }
}

/// A text of one of the sorts, mostly a short one.
fn text(rng: &mut Rng, sheet: &Sheet) -> Vec<u8> {
    if sheet.shop && rng.once_in(4) {
        return about_profile(rng, sheet);
    }
    match rng.below(200) {
        0..=1 => large::text(rng, sheet),
        2..=11 => soup(rng),
        12..=69 => damaged_tokens(rng, sheet),
        70..=99 => damaged_bytes(rng, sheet),
        100..=105 => with_ill_formed(rng, sheet),
        106..=117 => several_faults(rng, sheet),
        118..=129 => about_topics(rng, sheet),
        130..=141 => about_days(rng, sheet),
        sort => {
            let tokens = walk(rng, sheet, if sort < 164 { SELDOM } else { NEVER });
            spell(rng, &tokens)
        }
    }
}

fn walk(rng: &mut Rng, sheet: &Sheet, slips: usize) -> Vec<Token> {
    let mut walk = Walk::new(rng, sheet, slips);
    walk.text();
    walk.tokens()
}

/// A few tokens of any kind, without any order; sometimes none. Mostly they stand where a trigger or a condition does.
fn soup(rng: &mut Rng) -> Vec<u8> {
    let before = rng.pick(&["", "when", "when", "when controller starts", "when controller starts if", "when http trigger if"]);
    let before = before.split_whitespace().map(|word| Token::Borrowed(word.as_bytes()));
    let count = rng.below(7);
    let tokens: Vec<Token> = before.chain((0..count).map(|_| damage::any_token(rng))).collect();
    spell(rng, &tokens)
}

/// A short text with more than one fault, for the order in which the questions are put.
fn several_faults(rng: &mut Rng, sheet: &Sheet) -> Vec<u8> {
    let mut walk = Walk::new(rng, sheet, OFTEN);
    walk.short_text();
    let mut tokens = walk.tokens();
    if rng.once_in(2) {
        damage::tokens(rng, &mut tokens);
    }
    spell(rng, &tokens)
}

/// A text about topics, their count or one of them.
fn about_topics(rng: &mut Rng, sheet: &Sheet) -> Vec<u8> {
    let (one, slips) = (rng.once_in(3), rng.pick(&[NEVER, NEVER, NEVER, SELDOM]));
    let mut walk = Walk::new(rng, sheet, slips);
    if one { walk.topic_text() } else { walk.topics_text() }
    let tokens = walk.tokens();
    seldom_damaged(rng, tokens)
}

/// A text about days.
fn about_days(rng: &mut Rng, sheet: &Sheet) -> Vec<u8> {
    let slips = rng.pick(&[NEVER, NEVER, NEVER, SELDOM]);
    let mut walk = Walk::new(rng, sheet, slips);
    walk.days_text();
    let tokens = walk.tokens();
    seldom_damaged(rng, tokens)
}

/// A text about the shop profile.
fn about_profile(rng: &mut Rng, sheet: &Sheet) -> Vec<u8> {
    let slips = rng.pick(&[NEVER, NEVER, NEVER, SELDOM]);
    let mut walk = Walk::new(rng, sheet, slips);
    walk.profile_text();
    let tokens = walk.tokens();
    seldom_damaged(rng, tokens)
}

fn seldom_damaged(rng: &mut Rng, mut tokens: Vec<Token>) -> Vec<u8> {
    if rng.once_in(12) {
        damage::tokens(rng, &mut tokens);
    }
    spell(rng, &tokens)
}

fn damaged_tokens(rng: &mut Rng, sheet: &Sheet) -> Vec<u8> {
    let mut tokens = walk(rng, sheet, NEVER);
    damage::tokens(rng, &mut tokens);
    if rng.once_in(6) {
        damage::tokens(rng, &mut tokens);
    }
    spell(rng, &tokens)
}

fn damaged_bytes(rng: &mut Rng, sheet: &Sheet) -> Vec<u8> {
    let tokens = walk(rng, sheet, NEVER);
    let mut bytes = spell(rng, &tokens);
    damage::bytes(rng, &mut bytes);
    if rng.once_in(6) {
        damage::bytes(rng, &mut bytes);
    }
    bytes
}

fn with_ill_formed(rng: &mut Rng, sheet: &Sheet) -> Vec<u8> {
    let tokens = walk(rng, sheet, SELDOM);
    let mut bytes = spell(rng, &tokens);
    damage::ill_formed(rng, &mut bytes);
    bytes
}
