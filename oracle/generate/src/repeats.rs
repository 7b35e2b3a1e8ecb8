//! ARGS around document 02 §11: an argument that is there twice, in every way, and what stands beside that.

use crate::arguments::Argument;
use crate::grammar::Walk;
use crate::spell::Token;

/// Arguments up to a comma or to what is no key, each where the default call and the archive call may part, or just beside.
const OPEN_ENDED: &[&str] = &[
    "dev = 1 ,", "1 , inst = 2 ,", "inst = 2 , 1 ,", "1 ,", "inst = 1 ,", "group = 1 ,", "1 , 2 ,", "dev = 1 , dev",
    "dev = 1 , dev =", "dev = 1 , inst", "dev = 1 , foo", "dev = 1 , dev 2", "dev = 1 , dev == 2", "dev = 1 , foo = 2",
    "inst = 1 , dev", "1 , dev", "1 , inst = 2 , inst", "1 , inst = 2 , type", "dev = 1 , = 2", "adapter = 1 , adapter",
    "type = 1 , type =", "group = 1 , group =",
];

/// The same with `)` behind them.
const CLOSED: &[&str] = &[
    "1 , 2 , 3", "1 , 2 , foo", "1 , 2 , dev = 3 , 4", "1 , 2 , 3 , dev = 4", "1 , 2 , 3 , inst = 4 , inst = 5",
    "dev = 1 , inst = 2 , 3", "dev = 1 , inst = 2 , 3 , 4", "inst = 2 , dev = 1 , \"a\"", "inst = 2 , 1 , 2",
    "inst = 2 , 1 , 7:05", "1 , inst = 2 , 3", "dev = 1 , , inst = 2", "dev = 1 , dev = \"\"", "dev = 1 , \"\"",
    "dev = \"\" , dev = 1", "inst = 1 , inst = 99", "inst = 99 , inst = 1", "adapter = 77 , adapter = 77",
    "type = foo , type = 1", "type = 1 , type = foo", "group = 1 , group = 32", "group = 1 , dev = 1 , dev = 2",
    "dev = 1 , group = 2 , group = 3", "inst = 1 , inst = 2", "dev = 1 , dev = 2", "1 , dev = 2",
    "type = 1 , dev = 1 , type = 1", "dev = 64 , dev = 63 , inst = 1", "foo = 1 , foo = 2",
    "Dev = 1 , dev = 1 , inst = 2", "dev = \"aaaaaaaaaaaaaaaaaaaaaaaaaaaaaaaaaaaaaaaaaaaaaaaaa\" , dev = 1",
    "dev = 1 , dev = \"aaaaaaaaaaaaaaaaaaaaaaaaaaaaaaaaaaaaaaaaaaaaaaaaa\"",
];

/// Values for a repeat that is refused before its value is read.
const WRONG: &[&str] = &["\"\"", "32", "64", "256", "77", "foo", "5s", "-", "\"nowhere\"", "= 1"];

impl Walk<'_> {
    /// Complete arguments, and one of them again: the same, with another value, with or without its key, or with a wrong value.
    pub(crate) fn twice(&mut self, group_fits: bool) {
        let list = self.complete(group_fits);
        let mut suiting = None;
        let mut written: Vec<Vec<Token>> = list.iter().map(|&argument| self.apart(argument, &mut suiting)).collect();
        let nth = self.rng.below(list.len());
        let again = match self.rng.below(8) {
            0 | 1 => written[nth].clone(),
            2 | 3 => self.apart(other_way(list[nth]), &mut suiting),
            4 if written[nth].len() > 1 => self.wrong(&written[nth]),
            _ => self.apart(list[nth], &mut suiting),
        };
        let first = if self.rng.once_in(4) { 0 } else { nth + 1 };
        let at = self.rng.within(first, list.len());
        written.insert(at, again);
        self.say("(");
        self.out.extend(written.join(&Token::Borrowed(b",")));
        self.say(")");
    }

    /// The tokens of an argument, not yet put out.
    fn apart(&mut self, argument: Argument, suiting: &mut Option<u8>) -> Vec<Token> {
        let start = self.out.len();
        self.argument(argument, suiting);
        self.out.split_off(start)
    }

    /// A named argument with a wrong value.
    fn wrong(&mut self, written: &[Token]) -> Vec<Token> {
        let value = self.rng.pick(WRONG).split(' ').map(|token| Token::Borrowed(token.as_bytes()));
        written[..2].iter().cloned().chain(value).collect()
    }

    /// Fixed arguments; those that are open may end the text.
    pub(crate) fn beside_repeats(&mut self) {
        self.say("(");
        if self.rng.once_in(2) {
            let arguments = self.rng.pick(CLOSED);
            self.say(arguments);
        } else {
            let arguments = self.rng.pick(OPEN_ENDED);
            self.say(arguments);
            if self.rng.once_in(2) {
                self.end.get_or_insert(self.out.len());
            }
        }
        self.say(")");
    }
}

/// A dev or inst with its key if it had none, without it if it had one.
fn other_way(argument: Argument) -> Argument {
    match argument {
        Argument::Dev => Argument::First,
        Argument::First => Argument::Dev,
        Argument::Inst => Argument::Second,
        Argument::Second => Argument::Inst,
        same => same,
    }
}
