//! What calls and joins accept, in the flat layout.

use super::row::{condition_row, trigger_row};
use crate::join::{joined, topics, Which};
use crate::model::{Condition, Trigger};
use crate::topics::Topics;
use crate::{read, read_behind};
use cases::{Case, Flat, Join};

/// Both lists of a call, the names in the first text; nothing if it is refused.
pub fn flat_of_call(case: &Case) -> Option<Flat> {
    let lists = read(case).result.ok()?;
    let triggers: Vec<(Which, Trigger)> = lists.triggers.iter().map(|trigger| (1, *trigger)).collect();
    let conditions: Vec<(Which, Condition)> = lists.conditions.iter().map(|condition| (1, *condition)).collect();
    Some(laid([&case.text, &[]], &triggers, &conditions))
}

/// Both lists of a join, the names of each entry in its text; nothing if it is refused.
pub fn flat_of_join(join: &Join) -> Option<Flat> {
    let calls = [join.call(0), join.call(1)];
    let first = read(&calls[0]).result.ok()?;
    let second = read_behind(&calls[1], Topics::lent(&join.topics).and_earlier(topics(&first))).result.ok()?;
    let lists = joined(&first, &second).ok()?;
    Some(laid([&calls[0].text, &calls[1].text], &lists.triggers, &lists.conditions))
}

/// The rows of entries whose names are parts of these texts.
fn laid(texts: [&[u8]; 2], triggers: &[(Which, Trigger)], conditions: &[(Which, Condition)]) -> Flat {
    let mut flat = Flat { counts: [triggers.len() as u32, conditions.len() as u32], ..Flat::default() };
    let text = |from: Which| texts[usize::from(from) - 1];
    for (row, (from, trigger)) in flat.triggers.iter_mut().zip(triggers) {
        *row = trigger_row((*from).into(), text(*from), trigger);
    }
    for (row, (from, condition)) in flat.conditions.iter_mut().zip(conditions) {
        *row = condition_row((*from).into(), text(*from), condition);
    }
    flat
}
