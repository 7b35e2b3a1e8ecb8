//! ARGS of the grammar: the arguments of `input( )`.

use crate::grammar::Walk;
use crate::sheet::Kind;

#[derive(Clone, Copy, PartialEq)]
pub enum Argument {
    Dev,
    Inst,
    Group,
    Type,
    Adapter,
    /// Without a name: dev, then inst.
    First,
    Second,
}

use Argument::{Adapter, Dev, First, Group, Inst, Second, Type};

const ALL: [Argument; 7] = [Dev, Inst, Group, Type, Adapter, First, Second];

impl Walk<'_> {
    /// ARGS; where `group_fits`, often the arguments of an instance group.
    pub fn arguments(&mut self, group_fits: bool) {
        match self.rng.below(24) {
            0..=2 => return self.twice(group_fits),
            3 | 4 => return self.beside_repeats(),
            _ => {}
        }
        let mut list = self.complete(group_fits);
        if self.rng.once_in(if self.slips > 0 { 8 } else { 60 }) {
            let more = self.rng.pick(&ALL);
            let at = self.rng.below(list.len() + 1);
            list.insert(at, more);
        }
        if self.rng.once_in(if self.slips > 0 { 16 } else { 100 }) {
            list.pop();
        }
        self.write(&list);
    }

    /// Arguments that make up an instance or an instance group.
    pub(crate) fn complete(&mut self, group_fits: bool) -> Vec<Argument> {
        if self.rng.once_in(if group_fits { 2 } else { 12 }) { self.group() } else { self.instance() }
    }

    fn instance(&mut self) -> Vec<Argument> {
        let mut list = match self.rng.below(5) {
            0 | 1 => vec![First, Second],
            2 => vec![Inst, First],
            3 => vec![Inst, Dev],
            _ => vec![Dev, Inst],
        };
        self.add(&mut list, Adapter, 4);
        self.add(&mut list, Type, 12);
        list
    }

    fn group(&mut self) -> Vec<Argument> {
        let mut list = vec![Group];
        self.add(&mut list, Type, 2);
        self.add(&mut list, Adapter, 4);
        list
    }

    /// Adds an argument anywhere, once in `n` times.
    fn add(&mut self, list: &mut Vec<Argument>, argument: Argument, n: usize) {
        if self.rng.once_in(n) {
            let at = self.rng.below(list.len() + 1);
            list.insert(at, argument);
        }
    }

    fn write(&mut self, list: &[Argument]) {
        self.say("(");
        let mut suiting = None;
        for (at, &argument) in list.iter().enumerate() {
            if at > 0 {
                self.say(",");
            }
            self.argument(argument, &mut suiting);
        }
        self.say(")");
    }

    /// One argument; `suiting` is the adapter that suits the last dev.
    pub(crate) fn argument(&mut self, argument: Argument, suiting: &mut Option<u8>) {
        match argument {
            Dev => { self.say("dev ="); *suiting = self.name_or_id(Kind::Input) }
            First => *suiting = self.name_or_id(Kind::Input),
            Inst => { self.say("inst ="); self.number(31) }
            Second => self.number(31),
            Group => { self.say("group ="); self.number(31) }
            Type => { self.say("type ="); self.input_type() }
            Adapter => { self.say("adapter ="); self.adapter(*suiting) }
        }
    }

    fn input_type(&mut self) {
        if self.rng.once_in(3) {
            return self.number(31);
        }
        self.choose(&["button", "absolute", "occupancy", "light"]);
    }
}
