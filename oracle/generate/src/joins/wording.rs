//! An entry in words: one of the ways in which it can be written.

use super::entry::{Entry, Leaf, Part, EVERY_DAY};
use super::scope::Scope;
use crate::grammar::quoted;
use crate::reflow::{DURATION, TIME};
use crate::respell::respelled;
use crate::rng::Rng;
use crate::sheet::Kind;
use crate::spell::Token;
use crate::vocabulary::DAYS;
use std::borrow::Cow;

const TYPES: [&str; 4] = ["button", "absolute", "occupancy", "light"];

pub struct Wording<'a> {
    pub rng: &'a mut Rng,
    pub scope: &'a Scope,
    pub out: Vec<Token>,
}

/// An argument of ARGS.
type Argument = Vec<Token>;

impl Wording<'_> {
    fn say(&mut self, tokens: &'static str) {
        self.out.extend(tokens.split(' ').map(|token| Cow::Borrowed(token.as_bytes())));
    }

    fn push(&mut self, token: impl Into<Vec<u8>>) {
        self.out.push(Cow::Owned(token.into()));
    }

    fn number(&mut self, number: i64) {
        let zeros = if self.rng.once_in(12) { "00" } else { "" };
        self.push(format!("{zeros}{number}"));
    }

    /// What `write` puts out, taken apart.
    fn apart(&mut self, write: impl FnOnce(&mut Self)) -> Vec<Token> {
        let start = self.out.len();
        write(self);
        self.out.split_off(start)
    }

    pub fn entry(&mut self, entry: &Entry) {
        let mut leaves = entry.leaves.as_slice();
        for part in entry.form {
            leaves = self.part(*part, leaves);
        }
    }

    /// Writes a part with the values that it takes, and gives those that are left.
    fn part<'b>(&mut self, part: Part, leaves: &'b [Leaf]) -> &'b [Leaf] {
        match (part, leaves) {
            (Part::Say(words), rest) => { self.say(words); return rest }
            (Part::Reference(kind), [Leaf::Adapter(adapter), Leaf::Number { value, .. }, rest @ ..]) => {
                self.reference(kind, *adapter, *value, "");
                return rest;
            }
            (Part::Device, [Leaf::Adapter(adapter), Leaf::Number { value, .. }, rest @ ..]) => {
                let key = self.rng.pick(&["", "dev ="]);
                self.reference(Kind::Input, *adapter, *value, key);
                return rest;
            }
            (Part::Instance, [Leaf::Adapter(adapter), Leaf::Number { value: device, .. }, Leaf::Number { value: instance, .. }, rest @ ..]) => {
                self.instance(*adapter, *device, *instance);
                return rest;
            }
            (Part::Group, [Leaf::Adapter(adapter), Leaf::Number { value, .. }, Leaf::Type(of), rest @ ..]) => {
                self.group(*adapter, *value, *of);
                return rest;
            }
            (Part::Scene, [Leaf::Adapter(adapter), Leaf::Number { value, .. }, rest @ ..]) => {
                self.say("(");
                self.number(*value);
                self.adapter_clause(*adapter, *adapter != self.scope.primary);
                self.say(")");
                return rest;
            }
            (Part::Solar, [Leaf::Word { word, .. }, Leaf::Offset(offset), rest @ ..]) => {
                self.say(word);
                self.offset(*offset);
                return rest;
            }
            (_, [Leaf::Word { word, .. }, ..]) => self.say(word),
            (_, [Leaf::Number { value, .. }, ..]) => self.number(*value),
            (_, [Leaf::Milliseconds { value, .. }, ..]) => self.respelled(DURATION, *value),
            (_, [Leaf::Minutes(value), ..]) => self.respelled(TIME, *value),
            (Part::OnDays, [Leaf::Days(EVERY_DAY), ..]) if !self.rng.once_in(3) => {}
            (Part::OnDays, [Leaf::Days(days), ..]) => { self.say("on"); self.days(*days) }
            (_, [Leaf::Days(days), ..]) => self.days(*days),
            (_, [Leaf::Name(string) | Leaf::Topic(string) | Leaf::Text(string), ..]) => self.out.push(quoted(string)),
            (_, [Leaf::Signed(number), ..]) => self.signed(*number),
            (_, [Leaf::Added(None), ..]) => {}
            (_, [Leaf::Added(Some(number)), ..]) => self.added(*number),
            (_, [Leaf::Nested(entry), ..]) => self.entry(entry),
            (part, leaves) => panic!("{part:?} does not take {leaves:?}"),
        }
        &leaves[1..]
    }

    fn respelled(&mut self, kind: u32, number: u32) {
        let token = respelled(self.rng, kind, number).expect("a number has spellings");
        self.push(token);
    }

    /// A name or an id, and whether an adapter must be named with it.
    fn name_or_id(&mut self, kind: Kind, adapter: u8, number: i64) -> bool {
        let names = self.scope.names_of(kind, adapter, number as usize);
        if !names.is_empty() && !self.rng.once_in(3) {
            let (name, needed) = &names[self.rng.below(names.len())];
            self.out.push(quoted(name));
            return *needed;
        }
        self.number(number);
        adapter != self.scope.primary
    }

    /// `, adapter = A`, if it must be there, and often if it may.
    fn adapter_clause(&mut self, adapter: u8, needed: bool) {
        if let Some(clause) = self.adapter(adapter, needed) {
            self.say(",");
            self.out.extend(clause);
        }
    }

    fn adapter(&mut self, adapter: u8, needed: bool) -> Option<Vec<Token>> {
        let wanted = needed || self.scope.listed.contains(&adapter) && self.rng.once_in(3);
        wanted.then(|| self.apart(|wording| { wording.say("adapter ="); wording.number(adapter.into()) }))
    }

    fn reference(&mut self, kind: Kind, adapter: u8, number: i64, key: &'static str) {
        self.say("(");
        if !key.is_empty() {
            self.say(key);
        }
        let needed = self.name_or_id(kind, adapter, number);
        self.adapter_clause(adapter, needed);
        self.say(")");
    }

    /// ARGS of one instance, in any order: those without a key are the device, then the instance. A type does not count.
    fn instance(&mut self, adapter: u8, device: i64, instance: i64) {
        let mut needed = false;
        let (dev, inst) = self.rng.pick(&[(None, None), (Some("dev ="), Some("inst =")), (None, Some("inst ="))]);
        let first = self.apart(|wording| {
            dev.into_iter().for_each(|key| wording.say(key));
            needed = wording.name_or_id(Kind::Input, adapter, device);
        });
        let second = self.apart(|wording| {
            inst.into_iter().for_each(|key| wording.say(key));
            wording.number(instance);
        });
        let mut arguments = vec![first, second];
        if inst.is_some() && self.rng.once_in(2) {
            arguments.swap(0, 1);
        }
        if let Some(clause) = self.adapter(adapter, needed) {
            self.put_in(&mut arguments, clause);
        }
        if self.rng.once_in(8) {
            let of = self.rng.pick(&[0, 1, 4, 31]);
            let clause = self.apart(|wording| wording.of_type(of));
            self.put_in(&mut arguments, clause);
        }
        self.arguments(arguments);
    }

    fn group(&mut self, adapter: u8, group: i64, of: Option<u8>) {
        let clause = self.apart(|wording| { wording.say("group ="); wording.number(group) });
        let mut arguments = vec![clause];
        if let Some(of) = of {
            let clause = self.apart(|wording| wording.of_type(of));
            self.put_in(&mut arguments, clause);
        }
        if let Some(clause) = self.adapter(adapter, adapter != self.scope.primary) {
            self.put_in(&mut arguments, clause);
        }
        self.arguments(arguments);
    }

    fn of_type(&mut self, of: u8) {
        self.say("type =");
        match usize::from(of).checked_sub(1).and_then(|at| TYPES.get(at)) {
            Some(word) if !self.rng.once_in(3) => self.say(word),
            _ => self.number(of.into()),
        }
    }

    fn put_in(&mut self, arguments: &mut Vec<Argument>, clause: Vec<Token>) {
        let at = self.rng.within(0, arguments.len());
        arguments.insert(at, clause);
    }

    fn arguments(&mut self, arguments: Vec<Argument>) {
        self.say("(");
        for (at, argument) in arguments.into_iter().enumerate() {
            if at > 0 {
                self.say(",");
            }
            self.out.extend(argument);
        }
        self.say(")");
    }

    /// Nothing, `+` or `-` for an offset of 0.
    fn offset(&mut self, offset: i64) {
        let sign = match offset {
            0 if !self.rng.once_in(3) => return,
            0 => self.rng.pick(&["+", "-"]),
            1.. => "+",
            _ => "-",
        };
        self.say(sign);
        self.respelled(DURATION, offset.unsigned_abs() as u32);
    }

    fn signed(&mut self, number: i64) {
        match number {
            0 => { let sign = self.rng.pick(&["", "", "+", "-"]); if !sign.is_empty() { self.say(sign) } }
            1.. => if self.rng.once_in(4) { self.say("+") },
            _ => self.say("-"),
        }
        self.number(number.abs());
    }

    fn added(&mut self, number: i64) {
        let sign = match number {
            0 => self.rng.pick(&["+", "-"]),
            1.. => "+",
            _ => "-",
        };
        self.say(sign);
        self.number(number.abs());
    }

    /// Days and ranges that make up a set, in any order; now and then one of them again.
    fn days(&mut self, days: u8) {
        let has = |day: usize| days >> (day % DAYS.len()) & 1 == 1;
        let mut left: Vec<usize> = (0..DAYS.len()).filter(|&day| has(day)).collect();
        let mut items = Vec::new();
        while !left.is_empty() {
            let from = if self.rng.once_in(2) { left[0] } else { self.rng.pick(&left) };
            let longest = (1..DAYS.len()).take_while(|&more| has(from + more)).count();
            let more = if self.rng.once_in(2) { longest } else { self.rng.within(0, longest) };
            items.push((from, more));
            left.retain(|&day| (day + DAYS.len() - from) % DAYS.len() > more);
        }
        if self.rng.once_in(6) {
            let again = self.rng.pick(&items);
            items.push(again);
        }
        for (at, (from, more)) in items.into_iter().enumerate() {
            if at > 0 {
                self.say(",");
            }
            self.say(DAYS[from]);
            if more > 0 || self.rng.once_in(8) {
                self.say("..");
                self.say(DAYS[(from + more) % DAYS.len()]);
            }
        }
    }
}
