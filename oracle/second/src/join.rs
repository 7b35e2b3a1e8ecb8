//! Document 02 §3: two rules of a branch that differ only in their triggers, joined.

use crate::buffer::Buffer;
use crate::model::{Condition, Lists, Trigger};
use crate::refusal::{Place, Refusal};
use crate::topics::Topics;
use crate::{print, read, read_behind};
use cases::Join;

const MOST_TRIGGERS: usize = 4;

/// Which text an entry is taken from or a refusal is of, 1 or 2; "the answer says which text (else 0)".
pub type Which = u8;

/// "Each joined entry says which text it is taken from, where its names stand."
#[derive(Debug)]
pub struct Joined<'a> {
    pub triggers: Vec<(Which, Trigger<'a>)>,
    pub conditions: Vec<(Which, Condition<'a>)>,
}

#[derive(Debug)]
pub struct Refused {
    pub which: Which,
    pub refusal: Refusal,
}

/// The answer to a join, in the replay format. "The reader's refusal of the first text comes first (second buffer untouched), then that of
/// the second."
pub fn join(join: &Join) -> String {
    let calls = [join.call(0), join.call(1)];
    let first = read(&calls[0]);
    let lists = match &first.result {
        Ok(lists) => lists,
        Err(refusal) => {
            let untouched = Buffer::new(join.words[1]);
            return print::joined(join.id, [&first.buffer, &untouched], &Err(Refused { which: 1, refusal: *refusal }));
        }
    };
    let second = read_behind(&calls[1], Topics::lent(&join.topics).and_earlier(topics(lists)));
    let result = match &second.result {
        Ok(more) => joined(lists, more),
        Err(refusal) => Err(Refused { which: 2, refusal: *refusal }),
    };
    print::joined(join.id, [&first.buffer, &second.buffer], &result)
}

/// The topics that a text names.
pub fn topics<'a, 'b>(lists: &'b Lists<'a>) -> impl Iterator<Item = &'a [u8]> + use<'a, 'b> {
    lists.triggers.iter().filter_map(|trigger| match trigger {
        Trigger::Mqtt(topic) => Some(*topic),
        _ => None,
    })
}

/// "After these it refuses two condition lists that differ in entries or order with 51, then more than four triggers left with 52, both at
/// place 0:0." "The first's conditions are kept."
pub fn joined<'a>(first: &Lists<'a>, second: &Lists<'a>) -> Result<Joined<'a>, Refused> {
    let refused = |number: u32| Err(Refused { which: 0, refusal: Refusal::new(number, Place::NONE) });
    if first.conditions != second.conditions {
        return refused(51);
    }
    let triggers = different(first, second);
    if triggers.len() > MOST_TRIGGERS {
        return refused(52);
    }
    Ok(Joined { triggers, conditions: first.conditions.iter().map(|condition| (1, *condition)).collect() })
}

/// "The first's triggers, then those of the second that are not yet there, repeats dropped throughout." "Equality is by record, names and
/// other strings by bytes": a name of the model is its bytes.
fn different<'a>(first: &Lists<'a>, second: &Lists<'a>) -> Vec<(Which, Trigger<'a>)> {
    let mut different: Vec<(Which, Trigger)> = Vec::new();
    for (which, lists) in [(1, first), (2, second)] {
        for trigger in &lists.triggers {
            if !different.iter().any(|(_, known)| known == trigger) {
                different.push((which, *trigger));
            }
        }
    }
    different
}
