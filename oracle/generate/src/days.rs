//! Document 02 §1: sets of days behind `at` and its time or sun and as a condition, of every shape, and damaged ones.

use crate::grammar::Walk;
use crate::spell::Token;
use crate::vocabulary::{DAYS, NO_DAYS};
use std::borrow::Cow;

/// Tokens that are no word, in the place of a day.
const NO_WORDS: &[&str] = &[
    "5", "1", "7", "0", "\"mon\"", "\"\"", "7:05", "5s", "1.5", "(", ")", "{", "}", ",", ".", "..", "=", "==", "!=", ">", "+", "-", "...",
];

/// What may be damaged behind a set.
const BEHIND: &[&str] = &[
    ",", "..", ".", "...", ".. .", ", ,", ".. , tue", ", ..", ".. tue .. wed", "tue", "on", "on tue", "on tue , wed", "in tue", "and tue", "- fri", "+ 5m", "- 5s",
    ", when", ", when http trigger", ", if", ", if sun is up", ", and", ", and sun is up", ", on tue", ", in tue", ", is", ".. when", ".. and sun is up", ", 5",
    ", \"tue\"", ".. 5", ".. \"fri\"", "\"tue\"", "5", "(", ")", "== 5", "is up", ". is_up", "day in tue", "at 7:05", "foo", "mon", "@", "\"", "24:00",
    ", foo @", ".. foo 5", ", foo foo", ", Tue , tue", ".. monday", ", sunset", ".. sunrise",
];

/// What stands in the place of `in` behind `day`.
const NO_IN: &[&str] = &["mon", "foo", "is mon", "on mon", "In mon", "5", "\"in\" mon", "and sun is up", "in", "== mon", ".. mon", "( mon )", ". mon", "day in mon"];

fn word(token: &str) -> Token {
    Cow::Owned(token.as_bytes().to_vec())
}

/// The day so many days behind another.
fn after(day: usize, days: usize) -> usize {
    (day + days) % DAYS.len()
}

impl Walk<'_> {
    fn any_day(&mut self) -> usize {
        self.rng.below(DAYS.len())
    }

    /// A day; in a slip a word that is none.
    fn day(&mut self, day: usize) {
        let token = if self.slip() { self.rng.pick(NO_DAYS) } else { DAYS[day] };
        self.say(token);
    }

    fn range(&mut self, from: usize, to: usize) {
        self.day(from);
        self.say("..");
        self.day(to);
    }

    /// A day or a range.
    fn item(&mut self) {
        let (from, to) = (self.any_day(), self.any_day());
        match self.rng.below(8) {
            0..=3 => self.day(from),
            4 => self.range(from, from),
            _ => self.range(from, to),
        }
    }

    /// So many items, parted by commas.
    fn items(&mut self, count: usize) {
        for at in 0..count {
            if at > 0 {
                self.say(",");
            }
            self.item();
        }
    }

    /// A set of any shape: mostly one day or one range, else a list, one that has a day or a range twice, or all seven.
    fn day_set(&mut self) {
        match self.rng.below(32) {
            0..=9 => { let day = self.any_day(); self.day(day) }
            10..=17 => { let (from, to) = (self.any_day(), self.any_day()); self.range(from, to) }
            18..=22 => { let count = self.rng.within(2, 4); self.items(count) }
            23 => { let count = self.rng.within(5, 20); self.items(count) }
            24..=26 => self.repeated(),
            _ => self.all_seven(),
        }
    }

    /// A day twice, a range twice, a day with a range that holds it, or two ranges that share days.
    fn repeated(&mut self) {
        let (from, length) = (self.any_day(), self.rng.within(1, 5));
        let to = after(from, length);
        let inside = after(from, self.rng.within(0, length));
        match self.rng.below(6) {
            0 => { self.day(from); self.say(","); self.day(from) }
            1 => { self.range(from, to); self.say(","); self.range(from, to) }
            2 => { self.range(from, to); self.say(","); self.day(inside) }
            3 => { self.day(inside); self.say(","); self.range(from, to) }
            4 => { self.range(from, to); self.say(","); self.day(inside); self.say(","); self.day(inside) }
            _ => { let end = after(to, self.rng.within(0, 2)); self.range(from, to); self.say(","); self.range(inside, end) }
        }
    }

    /// All seven days, as one range, two or three, as single days in any order, or a range and single days.
    fn all_seven(&mut self) {
        let from = self.any_day();
        match self.rng.below(8) {
            0..=2 => self.range(from, after(from, 6)),
            3 => {
                let middle = self.rng.within(0, 5);
                self.range(from, after(from, middle));
                self.say(",");
                self.range(after(from, middle + 1), after(from, 6));
            }
            4 => { self.range(from, after(from, 4)); self.say(","); self.range(after(from, 3), after(from, 6)) }
            5 => { self.range(from, after(from, 4)); self.say(","); self.day(after(from, 5)); self.say(","); self.day(after(from, 6)) }
            _ => self.seven_singles(from),
        }
    }

    /// In the order of the week, backwards, or in steps.
    fn seven_singles(&mut self, from: usize) {
        let step = self.rng.within(1, 6);
        for nth in 0..DAYS.len() {
            if nth > 0 {
                self.say(",");
            }
            self.day(after(from, nth * step));
        }
    }

    /// `on` and a set, once in `n` times; in a slip something odd behind it, or instead of it.
    pub(crate) fn perhaps_on_days(&mut self, n: usize) {
        if self.rng.once_in(n) {
            self.on_days();
        } else if self.slip() {
            let tail = self.rng.pick(&["on", "on 5", "in mon", "mon", "On mon", "+ 5s on mon", "+ 5s", "- 5s", "\"on\" mon"]);
            self.say(tail);
        }
    }

    fn on_days(&mut self) {
        self.say("on");
        self.day_set();
        self.odd_behind();
    }

    /// The condition; in a slip something else in the place of `in`.
    pub(crate) fn day_in(&mut self) {
        if self.slip() && self.rng.once_in(3) {
            let odd = self.rng.pick(NO_IN);
            self.say("day");
            return self.say(odd);
        }
        self.say("day in");
        self.day_set();
        self.odd_behind();
    }

    fn odd_behind(&mut self) {
        if self.slip() {
            let behind = self.rng.pick(BEHIND);
            self.say(behind);
        }
    }

    /// `at` with days, with each kind of time. Now and then its offset is too large.
    fn at_on_days(&mut self) {
        self.say("at");
        match self.rng.below(6) {
            0..=2 => self.time(),
            3 if self.rng.once_in(6) => {
                let offset = self.rng.pick(&["sunset + 2147483.648s", "sunrise - 2147483.649s", "sunset + 597h", "sunset - 2147483.648s"]);
                self.say(offset)
            }
            _ => self.solar(),
        }
        self.on_days();
    }

    /// A set with one thing wrong in it: a token replaced, left out, put in or doubled, the text's end inside it, or something behind it.
    fn damaged_set(&mut self) {
        let start = self.out.len();
        self.day_set();
        let length = self.out.len() - start;
        let at = start + self.rng.below(length);
        // The place of a day: the others have a comma or `..`.
        let day = start + self.rng.below(length.div_ceil(2)) * 2;
        match self.rng.below(16) {
            0..=4 => self.out[day] = word(self.rng.pick(NO_DAYS)),
            5 | 6 => self.out[day] = word(self.rng.pick(NO_WORDS)),
            7 => drop(self.out.remove(at)),
            8 => self.out.insert(at, self.out[at].clone()),
            9 => self.end = Some(at),
            10 => { let other = word(self.rng.pick(NO_WORDS)); self.out.insert(at, other) }
            11 => { let other = word(self.rng.pick(NO_DAYS)); self.out.insert(at, other) }
            _ => { let behind = self.rng.pick(BEHIND); self.say(behind) }
        }
    }

    /// Four triggers and four conditions, all with days.
    fn eight_sets(&mut self) {
        for _ in 0..4 {
            self.say("when");
            self.at_on_days();
        }
        for link in ["if", "and", "and", "and"] {
            self.say(link);
            self.day_in();
        }
    }

    /// `on` and a set where none may stand: behind another trigger or behind a condition, or twice.
    fn misplaced(&mut self) {
        self.say("when");
        match self.rng.below(4) {
            0 => self.trigger(),
            1 => { let other = self.rng.pick(&["http trigger", "every 5s", "controller starts", "controller becomes active", "mqtt \"a\""]); self.say(other) }
            2 => {
                self.say("http trigger if");
                let other = self.rng.pick(&["sun is up", "time in 7:05 .. 8:00", "time in sunrise .. sunset", "controller is active", "time in 7:05 .. sunset + 5m"]);
                self.say(other)
            }
            _ if self.rng.once_in(2) => { self.say("http trigger if"); self.condition() }
            _ => self.at_on_days(),
        }
        self.on_days();
    }

    /// A text about days, good or with one fault in the last set, in a trigger or in a condition; behind it more may follow.
    pub fn days_text(&mut self) {
        match self.rng.below(24) {
            0 => return self.eight_sets(),
            1 | 2 => return self.misplaced(),
            _ => {}
        }
        let (fault, in_condition) = (self.rng.once_in(2), self.rng.once_in(3));
        let triggers = self.rng.pick(&[1, 1, 1, 1, 2, 2, 3, 4, 4, 5]);
        for nth in 1..=triggers {
            self.say("when");
            if fault && !in_condition && nth == triggers {
                self.say("at");
                if self.rng.once_in(2) { self.time() } else { self.solar() }
                self.say("on");
                self.damaged_set();
            } else if in_condition && self.rng.once_in(2) {
                self.say("http trigger");
            } else if self.rng.once_in(8) {
                self.trigger();
            } else {
                self.at_on_days();
            }
        }
        let conditions = if in_condition { self.rng.pick(&[1, 1, 1, 2, 2, 3, 4, 5]) } else { self.rng.pick(&[0, 0, 0, 1, 2]) };
        for nth in 1..=conditions {
            self.say(if nth == 1 { "if" } else { "and" });
            match self.rng.below(8) {
                0 if fault && in_condition && nth == conditions => { let odd = self.rng.pick(NO_IN); self.say("day"); self.say(odd) }
                _ if fault && in_condition && nth == conditions => { self.say("day in"); self.damaged_set() }
                0 => self.condition(),
                1 => self.say("sun is up"),
                _ => self.day_in(),
            }
        }
        if self.rng.once_in(12) {
            let behind = self.rng.pick(&["foo", "@", "when", "if lamp (", "and", "5", "on mon", "mon"]);
            self.say(behind);
        }
    }
}
