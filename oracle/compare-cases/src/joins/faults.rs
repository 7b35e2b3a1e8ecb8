//! Readers with a seeded fault against document 02 §3: what a hurried port may do. Each is the right way but for one step.

use super::calls::{accepted, lent_and, Called, Entry, Lists, UNTOUCHED};
use cases::{own_primary, Case, Habit, Join, LEAST_WORDS};
use std::collections::BTreeSet;

/// The steps of a join.
#[derive(Clone, Copy)]
pub struct Way {
    /// The call on each of the texts, 0 and 1.
    call: fn(&Join, usize) -> Case,
    /// What is lent to the second call, by what is lent and the first's topics.
    lent: fn(&[u8], &[Vec<u8>]) -> Vec<u8>,
    /// Whether two triggers are equal.
    same: fn(&Join, &Entry, &Entry) -> bool,
    /// The triggers that are left.
    left: fn(&Both) -> Vec<Taken>,
    /// Whether these are too many.
    crowded: fn(&Both, &[Taken]) -> bool,
    /// Whether the conditions agree.
    agree: fn(&[Entry], &[Entry]) -> bool,
    /// The conditions that are kept.
    kept: fn(&Both) -> Vec<Taken>,
    /// Whether 52 is asked before 51.
    crowd_first: bool,
    /// The whole answer.
    said: fn(&Said) -> String,
}

/// An entry with the number of its text.
type Taken = (u8, Entry);

/// Two accepted texts.
pub struct Both<'a> {
    join: &'a Join,
    way: &'a Way,
    lists: [&'a Lists; 2],
}

/// What there is to say.
pub struct Said<'a> {
    join: &'a Join,
    first: Called,
    second: Option<Called>,
    verdict: Verdict,
}

#[derive(Clone)]
enum Verdict {
    Refused { which: u8, refusal: String },
    Accepted { triggers: Vec<Taken>, conditions: Vec<Taken> },
}

impl Way {
    pub fn join(&self, join: &Join) -> String {
        let read = |call: Case| Called::of(&call, &second::answer(&call));
        let first = read((self.call)(join, 0));
        let Ok(one) = first.said.clone() else {
            let refusal = first.said.clone().unwrap_err();
            return (self.said)(&Said { join, first, second: None, verdict: Verdict::Refused { which: 1, refusal } });
        };
        let second = (self.call)(join, 1);
        let second = read(second.with_topics((self.lent)(&join.topics, &one.topics())));
        let verdict = match &second.said {
            Err(refusal) => Verdict::Refused { which: 2, refusal: refusal.clone() },
            Ok(two) => self.verdict(&Both { join, way: self, lists: [&one, two] }),
        };
        (self.said)(&Said { join, first, second: Some(second), verdict })
    }

    fn verdict(&self, both: &Both) -> Verdict {
        let refused = |number: u32| Verdict::Refused { which: 0, refusal: format!("{number} 0 0 0") };
        let triggers = (self.left)(both);
        let crowded = (self.crowded)(both, &triggers);
        let agree = (self.agree)(&both.lists[0].conditions, &both.lists[1].conditions);
        match (agree, crowded) {
            (false, true) => refused(if self.crowd_first { 52 } else { 51 }),
            (false, false) => refused(51),
            (true, true) => refused(52),
            (true, false) => Verdict::Accepted { triggers, conditions: (self.kept)(both) },
        }
    }
}

impl Both<'_> {
    fn all(&self) -> Vec<Taken> {
        let [one, two] = self.lists.map(|lists| lists.triggers.clone());
        one.into_iter().map(|trigger| (1, trigger)).chain(two.into_iter().map(|trigger| (2, trigger))).collect()
    }

    fn same(&self, one: &Entry, other: &Entry) -> bool {
        (self.way.same)(self.join, one, other)
    }

    /// The entries that `stays` is true of, given those that stayed before.
    fn filtered(&self, stays: impl Fn(&[Taken], &Taken) -> bool) -> Vec<Taken> {
        let mut left: Vec<Taken> = Vec::new();
        for taken in self.all() {
            if stays(&left, &taken) {
                left.push(taken);
            }
        }
        left
    }

    fn has(&self, list: &[Taken], entry: &Entry) -> bool {
        list.iter().any(|(_, known)| self.same(known, entry))
    }

    fn different(&self) -> Vec<Taken> {
        self.filtered(|left, (_, entry)| !self.has(left, entry))
    }

    fn of_first(&self) -> Vec<Taken> {
        self.all().into_iter().filter(|(from, _)| *from == 1).collect()
    }
}

fn lines(list: &[Entry]) -> Vec<String> {
    list.iter().map(|entry| entry.line.clone()).collect()
}

fn set(list: &[Entry]) -> BTreeSet<String> {
    lines(list).into_iter().collect()
}

fn sorted(list: &[Entry]) -> Vec<String> {
    let mut lines = lines(list);
    lines.sort();
    lines
}

fn numbered(from: u8, list: &[Entry]) -> Vec<Taken> {
    list.iter().map(|entry| (from, entry.clone())).collect()
}

/// Whether all entries of two lists are the same by what `key` gives for each.
fn all_same(one: &[Entry], two: &[Entry], key: impl Fn(&Entry) -> String) -> bool {
    one.iter().map(&key).eq(two.iter().map(&key))
}

/// The line with something else in the place of each string.
fn strings(entry: &Entry, say: impl Fn(&[u8]) -> Vec<u8>) -> String {
    entry.with_strings(|_, bytes| say(bytes).escape_ascii().to_string())
}

fn without(entry: &Entry, at: usize) -> String {
    let mut fields = entry.fields();
    if at < fields.len() {
        fields.remove(at);
    }
    fields.join(" ")
}

/// The line with what the first text has where each string stands.
fn in_first_text(join: &Join, entry: &Entry) -> String {
    entry.with_strings(|start, bytes| join.texts[0].get(start..start + bytes.len()).map_or(format!("outside {start}"), |found| found.escape_ascii().to_string()))
}

impl Said<'_> {
    fn records(&self) -> [&str; 2] {
        [&self.first.records, self.second.as_ref().map_or(UNTOUCHED, |second| &second.records)]
    }

    fn with_records(&self, records: [&str; 2]) -> String {
        let verdict = match &self.verdict {
            Verdict::Refused { which, refusal } => format!("refused {which} {refusal}\n"),
            Verdict::Accepted { triggers, conditions } => accepted(triggers, conditions),
        };
        format!("case {}\n{}{}{verdict}", self.join.id, records[0], records[1])
    }

    fn right(&self) -> String {
        self.with_records(self.records())
    }

    /// The answer with another WHICH and refusal.
    fn refused(&self, change: impl Fn(u8, &str) -> (u8, String)) -> String {
        let verdict = match &self.verdict {
            Verdict::Refused { which, refusal } => {
                let (which, refusal) = change(*which, refusal);
                Verdict::Refused { which, refusal }
            }
            accepted => accepted.clone(),
        };
        Said { join: self.join, first: self.first.clone(), second: self.second.clone(), verdict }.right()
    }

    fn number(&self) -> Option<(u8, u32)> {
        let Verdict::Refused { which, refusal } = &self.verdict else { return None };
        Some((*which, refusal.split(' ').next()?.parse().ok()?))
    }

    /// What the second text by itself gets.
    fn second_alone(&self) -> Called {
        let call = self.join.call(1);
        Called::of(&call, &second::answer(&call))
    }
}

const RIGHT: Way = Way {
    call: |join, nth| join.call(nth),
    lent: lent_and,
    same: |_, one, other| one.line == other.line,
    left: |both| both.different(),
    crowded: |_, left| left.len() > 4,
    agree: |one, two| lines(one) == lines(two),
    kept: |both| numbered(1, &both.lists[0].conditions),
    crowd_first: false,
    said: |said| said.right(),
};

pub const THE_RIGHT_WAY: Way = RIGHT;

pub const FAULTS: &[(&str, Way)] = &[
    // Which call reads the texts.
    ("both texts by the archive call", Way { call: |join, nth| join.call(nth).with_habit(Habit::Archive), ..RIGHT }),
    ("the first by the archive call", Way { call: |join, nth| if nth == 0 { join.call(0).with_habit(Habit::Archive) } else { join.call(1) }, ..RIGHT }),
    ("the second by the archive call", Way { call: |join, nth| if nth == 1 { join.call(1).with_habit(Habit::Archive) } else { join.call(0) }, ..RIGHT }),
    ("both texts by the shop call", Way { call: |join, nth| join.call(nth).with_habit(Habit::Shop), ..RIGHT }),
    ("the second as party 0", Way { call: |join, nth| if nth == 1 { join.call(1).with_party(0, join.primary) } else { join.call(0) }, ..RIGHT }),
    ("the second with the sheet's primary", Way { call: |join, nth| if nth == 1 { join.call(1).with_party(join.party, own_primary(&join.sheet)) } else { join.call(0) }, ..RIGHT }),
    ("the first's words for the second buffer", Way { call: |join, nth| Case { words: join.words[0], ..join.call(nth) }, ..RIGHT }),
    ("the second's words for the first buffer", Way { call: |join, nth| Case { words: join.words[1], ..join.call(nth) }, ..RIGHT }),
    // Which topics count.
    ("the first's topics forgotten", Way { lent: |lent, _| lent.to_vec(), ..RIGHT }),
    ("the lent topics forgotten for the second", Way { lent: |_, first| lent_and(b"", first), ..RIGHT }),
    ("the first's topics counted but not known", Way { lent: |lent, first| lent_and(lent, &unnamable(first)), ..RIGHT }),
    ("a topic that the first names twice counted twice", Way { lent: |lent, first| lent_and(&lent_and(lent, first), &repeated(first)), ..RIGHT }),
    ("the first's topics counted although they are lent", Way {
        lent: |lent, first| {
            let again: Vec<Vec<u8>> = first.iter().filter(|topic| lent.split(|&b| b == b'\n').any(|line| line == topic.as_slice())).cloned().collect();
            lent_and(&lent_and(lent, first), &unnamable(&again))
        },
        ..RIGHT
    }),
    ("the first of the first's topics alone", Way { lent: |lent, first| lent_and(lent, &first[..first.len().min(1)]), ..RIGHT }),
    ("the last of the first's topics alone", Way { lent: |lent, first| lent_and(lent, &first[first.len().saturating_sub(1)..]), ..RIGHT }),
    ("the first's topics behind the last lent one, without LF", Way { lent: |lent, first| [lent, &first.join(&b'\n')].concat(), ..RIGHT }),
    ("the first's topics in one line", Way { lent: |lent, first| [lent, b"\n", &first.concat()].concat(), ..RIGHT }),
    ("the second's topics counted for the first", Way {
        call: |join, nth| {
            let call = join.call(1);
            let second = Called::of(&call, &second::answer(&call)).said.map_or(Vec::new(), |lists| lists.topics());
            if nth == 0 { join.call(0).with_topics(lent_and(&join.topics, &second)) } else { call }
        },
        ..RIGHT
    }),
    // Which triggers are left.
    ("nothing dropped", Way { left: |both| both.all(), ..RIGHT }),
    ("repeats inside the first stay", Way { left: |both| both.filtered(|left, (from, entry)| *from == 1 || !both.has(left, entry)), ..RIGHT }),
    ("repeats inside the second stay", Way {
        left: |both| both.filtered(|left, (from, entry)| if *from == 1 { !both.has(left, entry) } else { !both.has(&both.of_first(), entry) }),
        ..RIGHT
    }),
    ("repeats inside either text stay", Way { left: |both| both.filtered(|_, (from, entry)| *from == 1 || !both.has(&both.of_first(), entry)), ..RIGHT }),
    ("repeats inside each text dropped, those of both not", Way {
        left: |both| both.filtered(|left, (from, entry)| !left.iter().any(|(of, known)| of == from && both.same(known, entry))),
        ..RIGHT
    }),
    ("only a repeat of the one before dropped", Way { left: |both| both.filtered(|left, (_, entry)| left.last().is_none_or(|(_, known)| !both.same(known, entry))), ..RIGHT }),
    ("the second's compared with the first's at the same place alone", Way {
        left: |both| {
            let [one, two] = both.lists.map(|lists| &lists.triggers);
            let new = two.iter().enumerate().filter(|(at, entry)| one.get(*at).is_none_or(|known| !both.same(known, entry)));
            let mut left = both.filtered(|left, (from, entry)| *from == 1 && !both.has(left, entry));
            left.extend(new.map(|(_, entry)| (2, entry.clone())));
            left
        },
        ..RIGHT
    }),
    ("the second's first trigger alone looked at", Way {
        left: |both| both.filtered(|left, (from, entry)| !both.has(left, entry) && (*from == 1 || left.iter().all(|(from, _)| *from == 1))),
        ..RIGHT
    }),
    ("a trigger of both dropped from both", Way {
        left: |both| {
            let in_text = |from: u8, entry: &Entry| both.all().iter().any(|(of, known)| *of == from && both.same(known, entry));
            both.different().into_iter().filter(|(_, entry)| in_text(1, entry) != in_text(2, entry)).collect()
        },
        ..RIGHT
    }),
    ("the last place counts", Way {
        left: |both| {
            let all = both.all();
            let last = |at: usize| !all[at + 1..].iter().any(|(_, later)| both.same(later, &all[at].1));
            (0..all.len()).filter(|&at| last(at)).map(|at| all[at].clone()).collect()
        },
        ..RIGHT
    }),
    ("FROM of the last place", Way {
        left: |both| {
            let from = |entry: &Entry| both.all().iter().rev().find(|(_, known)| both.same(known, entry)).map_or(1, |(from, _)| *from);
            both.different().into_iter().map(|(_, entry)| (from(&entry), entry)).collect()
        },
        ..RIGHT
    }),
    ("FROM always 1", Way { left: |both| both.different().into_iter().map(|(_, entry)| (1, entry)).collect(), ..RIGHT }),
    ("FROM 0 for a trigger of both", Way {
        left: |both| {
            let in_second = |entry: &Entry| both.lists[1].triggers.iter().any(|known| both.same(known, entry));
            both.different().into_iter().map(|(from, entry)| (if from == 1 && in_second(&entry) { 0 } else { from }, entry)).collect()
        },
        ..RIGHT
    }),
    ("the second's triggers first", Way { left: |both| { let mut left = both.different(); left.sort_by_key(|(from, _)| u8::MAX - from); left }, ..RIGHT }),
    ("the triggers in another order", Way { left: |both| { let mut left = both.different(); left.sort_by_key(|(_, entry)| entry.line.clone()); left }, ..RIGHT }),
    ("the first's triggers alone", Way { left: |both| both.different().into_iter().filter(|(from, _)| *from == 1).collect(), ..RIGHT }),
    // When there are too many.
    ("a fifth trigger left out", Way { left: |both| { let mut left = both.different(); left.truncate(4); left }, ..RIGHT }),
    ("52 by both counts together", Way { crowded: |both, _| both.all().len() > 4, ..RIGHT }),
    ("52 with the first's repeats counted", Way {
        crowded: |both, left| both.lists[0].triggers.len() + left.iter().filter(|(from, _)| *from == 2).count() > 4,
        ..RIGHT
    }),
    ("52 with the second's repeats counted", Way {
        crowded: |both, left| {
            let new = both.lists[1].triggers.iter().filter(|entry| !both.has(&both.of_first(), entry)).count();
            left.iter().filter(|(from, _)| *from == 1).count() + new > 4
        },
        ..RIGHT
    }),
    ("52 when one more comes behind four, a repeat too", Way {
        crowded: |both, left| {
            let fourth = left.get(3).and_then(|(_, fourth)| both.all().iter().position(|(_, entry)| entry.line == fourth.line));
            fourth.is_some_and(|at| at + 1 < both.all().len())
        },
        ..RIGHT
    }),
    ("four triggers are too many", Way { crowded: |_, left| left.len() > 3, ..RIGHT }),
    ("five triggers are not too many", Way { crowded: |_, left| left.len() > 5, ..RIGHT }),
    ("never 52", Way { crowded: |_, _| false, ..RIGHT }),
    // When two triggers are equal.
    ("triggers equal by their words", Way { same: |_, one, other| one.words == other.words, ..RIGHT }),
    ("names by where they stand", Way { same: |_, one, other| one.by_places() == other.by_places(), ..RIGHT }),
    ("names by where they begin", Way { same: |_, one, other| one.with_strings(|start, _| start.to_string()) == other.with_strings(|start, _| start.to_string()), ..RIGHT }),
    ("names by where they stand or by bytes", Way { same: |_, one, other| one.line == other.line || one.by_places() == other.by_places(), ..RIGHT }),
    ("names by where they stand and by bytes", Way { same: |_, one, other| one.line == other.line && one.by_places() == other.by_places(), ..RIGHT }),
    ("names by their length", Way { same: |_, one, other| strings(one, |bytes| vec![bytes.len() as u8]) == strings(other, |bytes| vec![bytes.len() as u8]), ..RIGHT }),
    ("names not compared", Way { same: |_, one, other| strings(one, |_| Vec::new()) == strings(other, |_| Vec::new()), ..RIGHT }),
    ("names alike in another case", Way { same: |_, one, other| strings(one, <[u8]>::to_ascii_lowercase) == strings(other, <[u8]>::to_ascii_lowercase), ..RIGHT }),
    ("names up to the shorter one", Way {
        same: |_, one, other| {
            let (a, b) = (strings(one, <[u8]>::to_vec), strings(other, <[u8]>::to_vec));
            a.starts_with(&b) || b.starts_with(&a)
        },
        ..RIGHT
    }),
    ("names up to 16 bytes", Way { same: |_, one, other| strings(one, |bytes| bytes[..bytes.len().min(16)].to_vec()) == strings(other, |bytes| bytes[..bytes.len().min(16)].to_vec()), ..RIGHT }),
    ("names up to a NUL", Way { same: |_, one, other| strings(one, up_to_nul) == strings(other, up_to_nul), ..RIGHT }),
    ("names without the spaces around them", Way { same: |_, one, other| strings(one, |bytes| bytes.trim_ascii().to_vec()) == strings(other, |bytes| bytes.trim_ascii().to_vec()), ..RIGHT }),
    ("the first byte of a name alone", Way { same: |_, one, other| strings(one, |bytes| bytes[..1].to_vec()) == strings(other, |bytes| bytes[..1].to_vec()), ..RIGHT }),
    ("the second's names looked up in the first text", Way { same: |join, one, other| one.line == other.line || in_first_text(join, one) == in_first_text(join, other), ..RIGHT }),
    ("triggers equal by their kind", Way { same: |_, one, other| one.fields()[0] == other.fields()[0], ..RIGHT }),
    ("triggers equal but for their kind", Way { same: |_, one, other| without(one, 0) == without(other, 0), ..RIGHT }),
    ("the first value not compared", Way { same: |_, one, other| without(one, 1) == without(other, 1), ..RIGHT }),
    ("the second value not compared", Way { same: |_, one, other| without(one, 2) == without(other, 2), ..RIGHT }),
    ("the third value not compared", Way { same: |_, one, other| without(one, 3) == without(other, 3), ..RIGHT }),
    ("the fourth value not compared", Way { same: |_, one, other| without(one, 4) == without(other, 4), ..RIGHT }),
    ("the last value not compared", Way { same: |_, one, other| without(one, one.fields().len() - 1) == without(other, other.fields().len() - 1), ..RIGHT }),
    ("days not compared", Way { same: |_, one, other| one.line.split(" on ").next() == other.line.split(" on ").next(), ..RIGHT }),
    ("no type like type 0", Way { same: |_, one, other| one.line.replace(" - ", " 0 ") == other.line.replace(" - ", " 0 "), ..RIGHT }),
    ("offsets without their sign", Way { same: |_, one, other| one.line.replace('-', "") == other.line.replace('-', ""), ..RIGHT }),
    ("no two triggers equal of which one has a name", Way { same: |_, one, other| one.line == other.line && !one.line.contains(" x"), ..RIGHT }),
    // When the conditions agree.
    ("never 51", Way { agree: |_, _| true, ..RIGHT }),
    ("conditions as sets", Way { agree: |one, two| set(one) == set(two), ..RIGHT }),
    ("conditions without their order", Way { agree: |one, two| sorted(one) == sorted(two), ..RIGHT }),
    ("conditions without repeats", Way { agree: |one, two| deduplicated(one) == deduplicated(two), ..RIGHT }),
    ("the counts of conditions", Way { agree: |one, two| one.len() == two.len(), ..RIGHT }),
    ("the first condition alone", Way { agree: |one, two| lines(&one[..one.len().min(1)]) == lines(&two[..two.len().min(1)]), ..RIGHT }),
    ("the last condition not compared", Way { agree: |one, two| one.len() == two.len() && lines(&one[..one.len().saturating_sub(1)]) == lines(&two[..two.len().saturating_sub(1)]), ..RIGHT }),
    ("conditions up to the shorter list", Way { agree: |one, two| one.iter().zip(two).all(|(a, b)| a.line == b.line), ..RIGHT }),
    ("no conditions in one like any", Way { agree: |one, two| one.is_empty() || two.is_empty() || lines(one) == lines(two), ..RIGHT }),
    ("the first's conditions all in the second", Way { agree: |one, two| set(one).is_subset(&set(two)) && one.len() <= two.len(), ..RIGHT }),
    ("no conditions in both is no agreement", Way { agree: |one, two| !one.is_empty() && lines(one) == lines(two), ..RIGHT }),
    ("conditions by their words", Way { agree: |one, two| one.iter().map(|entry| &entry.words).eq(two.iter().map(|entry| &entry.words)), ..RIGHT }),
    ("strings of conditions by where they stand", Way { agree: |one, two| all_same(one, two, Entry::by_places), ..RIGHT }),
    ("strings of conditions by their length", Way { agree: |one, two| all_same(one, two, |entry| strings(entry, |bytes| vec![bytes.len() as u8])), ..RIGHT }),
    ("strings of conditions not compared", Way { agree: |one, two| all_same(one, two, |entry| strings(entry, |_| Vec::new())), ..RIGHT }),
    ("strings of conditions in another case", Way { agree: |one, two| all_same(one, two, |entry| strings(entry, <[u8]>::to_ascii_lowercase)), ..RIGHT }),
    ("conditions by their kind", Way { agree: |one, two| all_same(one, two, |entry| entry.fields()[0].to_string()), ..RIGHT }),
    ("the first value of conditions not compared", Way { agree: |one, two| all_same(one, two, |entry| without(entry, 1)), ..RIGHT }),
    ("the second value of conditions not compared", Way { agree: |one, two| all_same(one, two, |entry| without(entry, 2)), ..RIGHT }),
    ("the third value of conditions not compared", Way { agree: |one, two| all_same(one, two, |entry| without(entry, 3)), ..RIGHT }),
    ("the last value of conditions not compared", Way { agree: |one, two| all_same(one, two, |entry| without(entry, entry.fields().len() - 1)), ..RIGHT }),
    ("an added 0 like none", Way { agree: |one, two| all_same(one, two, |entry| entry.line.strip_suffix(" 0").filter(|line| line.contains(" offset ")).unwrap_or(&entry.line).replace(" offset ", " reading ")), ..RIGHT }),
    ("a text like a number", Way { agree: |one, two| all_same(one, two, as_text), ..RIGHT }),
    ("numbers without their sign", Way { agree: |one, two| all_same(one, two, |entry| entry.line.replace('-', "")), ..RIGHT }),
    // Which are kept.
    ("the second's conditions kept", Way { kept: |both| numbered(2, &both.lists[1].conditions), ..RIGHT }),
    ("conditions FROM 2", Way { kept: |both| numbered(2, &both.lists[0].conditions), ..RIGHT }),
    ("conditions FROM 0", Way { kept: |both| numbered(0, &both.lists[0].conditions), ..RIGHT }),
    ("conditions FROM 2 where a trigger is", Way {
        kept: |both| numbered(both.different().last().map_or(1, |(from, _)| *from), &both.lists[0].conditions),
        ..RIGHT
    }),
    ("repeated conditions dropped", Way {
        kept: |both| {
            let list = &both.lists[0].conditions;
            let first = |at: &usize| !list[..*at].iter().any(|known| known.line == list[*at].line);
            (0..list.len()).filter(first).map(|at| (1, list[at].clone())).collect()
        },
        ..RIGHT
    }),
    ("conditions left out", Way { kept: |_| Vec::new(), ..RIGHT }),
    ("the conditions of both", Way { kept: |both| [numbered(1, &both.lists[0].conditions), numbered(2, &both.lists[1].conditions)].concat(), ..RIGHT }),
    ("conditions joined and not compared", Way {
        agree: |_, _| true,
        kept: |both| {
            let mut left: Vec<Taken> = numbered(1, &both.lists[0].conditions);
            for entry in &both.lists[1].conditions {
                if left.iter().all(|(_, known)| known.line != entry.line) {
                    left.push((2, entry.clone()));
                }
            }
            left
        },
        ..RIGHT
    }),
    // The order of the refusals.
    ("52 before 51", Way { crowd_first: true, ..RIGHT }),
    ("the second's refusal first", Way {
        said: |said| match (said.number(), said.second_alone()) {
            (Some((1, number)), Called { records, said: Err(refusal) }) if number != 3 && number != 53 => {
                let verdict = Verdict::Refused { which: 2, refusal };
                Said { join: said.join, first: said.first.clone(), second: None, verdict }.with_records([&said.first.records, &records])
            }
            _ => said.right(),
        },
        ..RIGHT
    }),
    ("the second buffer asked for first", Way {
        said: |said| {
            if said.join.words[1] >= LEAST_WORDS {
                return said.right();
            }
            let verdict = Verdict::Refused { which: 2, refusal: "2 0 0 0".to_string() };
            Said { join: said.join, first: said.first.clone(), second: None, verdict }.with_records([UNTOUCHED, UNTOUCHED])
        },
        ..RIGHT
    }),
    ("questions 1 to 4 of both before lexing", Way {
        said: |said| match (said.number(), said.second_alone().said) {
            (Some((1, number)), Err(refusal)) if number >= 10 && number != 53 && ["1 ", "2 ", "4 "].iter().any(|start| refusal.starts_with(start)) => {
                let verdict = Verdict::Refused { which: 2, refusal };
                Said { join: said.join, first: said.first.clone(), second: None, verdict }.with_records([UNTOUCHED, UNTOUCHED])
            }
            _ => said.right(),
        },
        ..RIGHT
    }),
    ("53 asked before the first text", Way {
        said: |said| {
            let call = said.join.call(0);
            let good = Case { text: b"when http trigger".to_vec(), words: LEAST_WORDS, ..call };
            match Called::of(&good, &second::answer(&good)).said {
                Err(refusal) if refusal.starts_with("53 ") => Said { join: said.join, first: said.first.clone(), second: None, verdict: Verdict::Refused { which: 1, refusal } }.right(),
                _ => said.right(),
            }
        },
        ..RIGHT
    }),
    // What is said of a refusal.
    ("1 and 2 changed over", Way { said: |said| said.refused(|which, refusal| (match which { 1 => 2, 2 => 1, other => other }, refusal.to_string())), ..RIGHT }),
    ("WHICH always 0", Way { said: |said| said.refused(|_, refusal| (0, refusal.to_string())), ..RIGHT }),
    ("WHICH 1 for the second", Way { said: |said| said.refused(|which, refusal| (which.min(1), refusal.to_string())), ..RIGHT }),
    ("WHICH 2 for 51", Way { said: |said| said.refused(|which, refusal| (if refusal.starts_with("51 ") { 2 } else { which }, refusal.to_string())), ..RIGHT }),
    ("WHICH 2 for 52", Way { said: |said| said.refused(|which, refusal| (if refusal.starts_with("52 ") { 2 } else { which }, refusal.to_string())), ..RIGHT }),
    ("WHICH 0 for 3", Way { said: |said| said.refused(|which, refusal| (if refusal.starts_with("3 ") { 0 } else { which }, refusal.to_string())), ..RIGHT }),
    ("WHICH 0 for 53", Way { said: |said| said.refused(|which, refusal| (if refusal.starts_with("53 ") { 0 } else { which }, refusal.to_string())), ..RIGHT }),
    ("WHICH 0 for a buffer", Way { said: |said| said.refused(|which, refusal| (if refusal.starts_with("2 ") { 0 } else { which }, refusal.to_string())), ..RIGHT }),
    ("51 at the first character", Way { said: |said| said.refused(|which, refusal| (which, refusal.replace("51 0 0 0", "51 1 1 0"))), ..RIGHT }),
    ("52 at the first character", Way { said: |said| said.refused(|which, refusal| (which, refusal.replace("52 0 0 0", "52 1 1 0"))), ..RIGHT }),
    ("52 with the count as its detail", Way {
        said: |said| {
            let count = [Some(&said.first), said.second.as_ref()].map(|called| called.and_then(|called| called.said.as_ref().ok()).map_or(0, |lists| lists.triggers.len()));
            said.refused(|which, refusal| (which, refusal.replace("52 0 0 0", &format!("52 0 0 {}", count[0] + count[1]))))
        },
        ..RIGHT
    }),
    ("the second's details lost", Way {
        said: |said| said.refused(|which, refusal| (which, if which == 2 { refusal.rsplit_once(' ').map_or_else(String::new, |(front, _)| format!("{front} 0")) } else { refusal.to_string() })),
        ..RIGHT
    }),
    ("the second's lines counted on", Way {
        said: |said| {
            let before = said.join.texts[0].iter().filter(|&&b| b == b'\n').count() as u32;
            said.refused(|which, refusal| {
                let fields: Vec<u32> = refusal.split(' ').filter_map(|field| field.parse().ok()).collect();
                let line = if which == 2 && fields[1] > 0 { fields[1] + before } else { fields[1] };
                (which, format!("{} {line} {} {}", fields[0], fields[2], fields[3]))
            })
        },
        ..RIGHT
    }),
    // What the buffers hold.
    ("the second buffer written though the first is refused", Way {
        said: |said| if said.second.is_none() { said.with_records([&said.first.records, &said.second_alone().records]) } else { said.right() },
        ..RIGHT
    }),
    ("the first buffer written anew for the second", Way {
        said: |said| said.second.as_ref().map_or_else(|| said.right(), |second| said.with_records([&second.records, UNTOUCHED])),
        ..RIGHT
    }),
    ("the first buffer empty where the second is refused", Way {
        said: |said| if matches!(said.number(), Some((2, _))) { said.with_records([UNTOUCHED, said.records()[1]]) } else { said.right() },
        ..RIGHT
    }),
    ("both buffers empty at 51", Way { said: |said| if said.number() == Some((0, 51)) { said.with_records([UNTOUCHED; 2]) } else { said.right() }, ..RIGHT }),
    ("the second buffer empty at 52", Way { said: |said| if said.number() == Some((0, 52)) { said.with_records([&said.first.records, UNTOUCHED]) } else { said.right() }, ..RIGHT }),
    ("the second buffer empty where nothing is taken from it", Way {
        said: |said| match &said.verdict {
            Verdict::Accepted { triggers, .. } if triggers.iter().all(|(from, _)| *from == 1) => said.with_records([&said.first.records, UNTOUCHED]),
            _ => said.right(),
        },
        ..RIGHT
    }),
    ("the buffers changed over", Way { said: |said| { let [one, two] = said.records(); said.with_records([two, one]) }, ..RIGHT }),
    // Where names stand.
    ("names of the second shown from the first text", Way {
        said: |said| {
            let Verdict::Accepted { triggers, conditions } = &said.verdict else { return said.right() };
            let shown = |(from, entry): &Taken| {
                let found = |start: usize, bytes: &[u8]| said.join.texts[0].get(start..start + bytes.len()).map_or("x".to_string(), hex);
                let mut entry = entry.clone();
                entry.line = if *from == 2 { entry.with_strings(found) } else { entry.line };
                (*from, entry)
            };
            let verdict = Verdict::Accepted { triggers: triggers.iter().map(shown).collect(), conditions: conditions.clone() };
            Said { join: said.join, first: said.first.clone(), second: said.second.clone(), verdict }.right()
        },
        ..RIGHT
    }),
];

fn hex(bytes: &[u8]) -> String {
    bytes.iter().fold("x".to_string(), |field, byte| format!("{field}{byte:02x}"))
}

/// Lines that count as topics and that no text can name.
fn unnamable(topics: &[Vec<u8>]) -> Vec<Vec<u8>> {
    topics.iter().enumerate().map(|(nth, topic)| [&[0, nth as u8 + b'0'], topic.as_slice()].concat()).collect()
}

/// A line for each topic that stands there again.
fn repeated(topics: &[Vec<u8>]) -> Vec<Vec<u8>> {
    let again = (0..topics.len()).filter(|&at| topics[..at].contains(&topics[at])).map(|at| topics[at].clone());
    unnamable(&again.collect::<Vec<_>>())
}

fn up_to_nul(bytes: &[u8]) -> Vec<u8> {
    bytes.split(|&b| b == 0).next().unwrap_or_default().to_vec()
}

fn deduplicated(list: &[Entry]) -> Vec<String> {
    let mut lines = lines(list);
    lines.dedup();
    lines
}

/// A number in the place of a text with its digits.
fn as_text(entry: &Entry) -> String {
    let Some((front, text)) = entry.line.split_once(" text ") else { return entry.line.clone() };
    let text = String::from_utf8_lossy(&super::calls::bytes(text)).into_owned();
    text.parse::<i64>().map_or_else(|_| entry.line.clone(), |number| format!("{front} value literal {number}"))
}
