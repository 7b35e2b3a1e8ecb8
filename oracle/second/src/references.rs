//! References: R, DEV, ARGS and TARGET, and how a name's rows are judged.

use crate::lexer::{Kind as TokenKind, Token};
use crate::model::{Instance, Ref, Selector, Target};
use crate::reader::{in_range, Read, Reader, Repeats};
use crate::refusal::{Place, Refusal};
use crate::sheet::{Kind, Row, View};

pub const HIGHEST_ADAPTER: u32 = 255;
/// The highest instance, instance group and instance type.
pub const HIGHEST_OF_ARGS: u32 = 31;
const MOST_UNNAMED: usize = 2;

/// What an argument of ARGS sets.
#[derive(Clone, Copy)]
enum Argument {
    Dev,
    Inst,
    Group,
    Type,
    Adapter,
}

impl Argument {
    fn of(key: &[u8]) -> Option<Argument> {
        match key {
            b"dev" => Some(Argument::Dev),
            b"inst" => Some(Argument::Inst),
            b"group" => Some(Argument::Group),
            b"type" => Some(Argument::Type),
            b"adapter" => Some(Argument::Adapter),
            _ => None,
        }
    }
}

/// The arguments of ARGS, each the last that was given. The dev and the group keep their tokens for later questions.
#[derive(Default)]
struct Arguments {
    dev: Option<Token>,
    inst: Option<u32>,
    group: Option<Token>,
    instance_type: Option<u32>,
    adapter: Option<u32>,
    unnamed: usize,
}

impl Arguments {
    fn is_set(&self, argument: Argument) -> bool {
        match argument {
            Argument::Dev => self.dev.is_some(),
            Argument::Inst => self.inst.is_some(),
            Argument::Group => self.group.is_some(),
            Argument::Type => self.instance_type.is_some(),
            Argument::Adapter => self.adapter.is_some(),
        }
    }
}

impl<'a> Reader<'a> {
    /// R: name or id, perhaps an adapter clause. Judged after `)`.
    pub fn reference(&mut self, kind: Kind) -> Read<Ref> {
        self.expect(TokenKind::Open)?;
        let token = self.name_or_id()?;
        self.rest_of_reference(kind, token)
    }

    /// The parentheses of `input device`: perhaps `dev =`, DEV, perhaps an adapter clause.
    pub fn input_device(&mut self) -> Read<Ref> {
        self.expect(TokenKind::Open)?;
        if self.take_word("dev") {
            self.expect(TokenKind::Assign)?;
        }
        let token = self.name_or_id()?;
        self.rest_of_reference(Kind::Input, token)
    }

    /// "An id's range and a name's rows are judged after the adapter clause and `)`."
    fn rest_of_reference(&mut self, kind: Kind, token: Token) -> Read<Ref> {
        let adapter = self.adapter_clause()?;
        self.expect(TokenKind::Close)?;
        self.judge(kind, token, adapter)
    }

    /// A name, held to 23 and 24 at once, or an id, whose range is judged later.
    fn name_or_id(&mut self) -> Read<Token> {
        if self.at_kind(TokenKind::String) { self.name() } else { self.expect(TokenKind::Integer) }
    }

    /// Perhaps `, adapter = A`.
    pub fn adapter_clause(&mut self) -> Read<Option<u32>> {
        if !self.take_kind(TokenKind::Comma) {
            return Ok(None);
        }
        self.expect_word("adapter")?;
        self.expect(TokenKind::Assign)?;
        self.adapter().map(Some)
    }

    /// A: in range, 22; listed, 25; both at the number.
    fn adapter(&mut self) -> Read<u32> {
        let place = self.place();
        let adapter = self.integer(HIGHEST_ADAPTER)?;
        listed(&self.given.sheet, adapter, place)
    }

    /// "An id, address, scene or instance group without an adapter takes the primary": the call's.
    pub fn or_primary(&self, adapter: Option<u32>) -> u32 {
        adapter.unwrap_or(self.given.sheet.primary)
    }

    /// The range of an id, or the rows of a name. Only a reference in use comes here.
    fn judge(&mut self, kind: Kind, token: Token, adapter: Option<u32>) -> Read<Ref> {
        if token.kind == TokenKind::String {
            return picked(&self.given.sheet, kind, self.bytes(token), adapter, token.place);
        }
        let number = in_range(token, kind.highest())?;
        self.left_out.numbered(token.place);
        Ok(Ref { adapter: self.or_primary(adapter), number })
    }

    /// TARGET: lamp R, group R or broadcast. A word that fits none of them is 20.
    pub fn target(&mut self) -> Read<Target> {
        if self.take_word("lamp") {
            return self.reference(Kind::Lamp).map(Target::Lamp);
        }
        if self.take_word("group") {
            return self.reference(Kind::Group).map(Target::Group);
        }
        let place = self.place();
        self.expect_word("broadcast")?;
        self.left_out.broadcast(place);
        Ok(Target::Broadcast(self.given.sheet.primary))
    }

    /// ARGS, and the place of its `(`, at which 30 is refused.
    pub fn selector(&mut self) -> Read<(Selector, Place)> {
        let open = self.expect(TokenKind::Open)?.place;
        let mut arguments = Arguments::default();
        loop {
            self.argument(&mut arguments)?;
            if !self.take_kind(TokenKind::Comma) {
                break;
            }
        }
        let close = self.expect(TokenKind::Close)?.place;
        Ok((self.selected(&arguments, close)?, open))
    }

    /// ARGS where the form needs one instance; 30 is asked after `)`.
    pub fn instance(&mut self) -> Read<Instance> {
        let (selector, open) = self.selector()?;
        one_instance(selector, open)
    }

    /// One argument. 63: "an argument that sets one already set, named or not", at its first token or at the end, "before
    /// its value is read but after 26"; in the archive call it replaces the earlier one.
    fn argument(&mut self, arguments: &mut Arguments) -> Read<()> {
        let key = self.key();
        let argument = match key {
            Some(key) => Argument::of(key).ok_or(Refusal::new(21, self.place()))?,
            None => self.unnamed(arguments)?,
        };
        if self.given.repeats == Repeats::Refused && arguments.is_set(argument) {
            return self.refuse(63);
        }
        if key.is_some() {
            self.any_word()?;
            self.expect(TokenKind::Assign)?;
        }
        match argument {
            Argument::Dev => arguments.dev = Some(self.name_or_id()?),
            Argument::Inst => arguments.inst = Some(self.integer(HIGHEST_OF_ARGS)?),
            Argument::Group => arguments.group = Some(self.instance_group()?),
            Argument::Type => arguments.instance_type = Some(self.instance_type()?),
            Argument::Adapter => arguments.adapter = Some(self.adapter()?),
        }
        Ok(())
    }

    /// What is no key is an unnamed argument, whatever stands here. "Unnamed ones are dev, then inst, counted among
    /// unnamed ones only"; 26 is asked before the third one's token is judged.
    fn unnamed(&self, arguments: &mut Arguments) -> Read<Argument> {
        arguments.unnamed += 1;
        match arguments.unnamed {
            1 => Ok(Argument::Dev),
            MOST_UNNAMED => Ok(Argument::Inst),
            _ => self.refuse(26),
        }
    }

    fn instance_group(&mut self) -> Read<Token> {
        let token = self.expect(TokenKind::Integer)?;
        in_range(token, HIGHEST_OF_ARGS)?;
        Ok(token)
    }

    /// A type: 0 to 31, or any word taken and compared with the four.
    fn instance_type(&mut self) -> Read<u32> {
        if !self.at_kind(TokenKind::Word) {
            return self.integer(HIGHEST_OF_ARGS);
        }
        let (word, place) = self.any_word()?;
        match word {
            b"button" => Ok(1),
            b"absolute" => Ok(2),
            b"occupancy" => Ok(3),
            b"light" => Ok(4),
            _ => Err(Refusal::new(21, place)),
        }
    }

    /// 27, 28 and 29, then the dev's range or rows. "Type counts only with group."
    fn selected(&mut self, arguments: &Arguments, close: Place) -> Read<Selector> {
        if let Some(group) = arguments.group {
            if arguments.dev.is_some() || arguments.inst.is_some() {
                return Err(Refusal::new(27, group.place));
            }
            let adapter = self.or_primary(arguments.adapter);
            let instance_type = arguments.instance_type;
            return Ok(Selector::Group { adapter, group: group.number, instance_type });
        }
        let dev = arguments.dev.ok_or(Refusal::new(28, close))?;
        let instance = arguments.inst.ok_or(Refusal::new(29, close))?;
        let device = self.judge(Kind::Input, dev, arguments.adapter)?;
        Ok(Selector::Instance(Instance { device, instance }))
    }
}

/// An adapter that is named: 25 if it is not listed.
pub fn listed(sheet: &View, adapter: u32, place: Place) -> Read<u32> {
    if sheet.listed.contains(&adapter) { Ok(adapter) } else { Err(Refusal::new(25, place)) }
}

/// The reference that a name picks, with this adapter named or with none: 31 to 34.
pub fn picked(sheet: &View, kind: Kind, name: &[u8], adapter: Option<u32>, place: Place) -> Read<Ref> {
    let named = |row: &&Row| row.kind == kind && row.name == name;
    let rows: Vec<&Row> = sheet.rows.iter().filter(named).collect();
    let Some(first) = rows.first() else {
        return Err(Refusal::new(31, place));
    };
    let in_scope = |row: &&&Row| adapter.is_none_or(|adapter| row.adapter == adapter);
    let scope: Vec<&Row> = rows.iter().filter(in_scope).copied().collect();
    match scope[..] {
        [] => Err(Refusal::with_detail(32, place, first.adapter)),
        [row] => Ok(Ref { adapter: row.adapter, number: row.number }),
        [..] => Err(more_than_one(&scope, place)),
    }
}

/// 33, or 34 if the rows in scope span adapters; detail their count.
fn more_than_one(scope: &[&Row], place: Place) -> Refusal {
    let spans = scope.iter().any(|row| row.adapter != scope[0].adapter);
    let count = u32::try_from(scope.len()).unwrap_or(u32::MAX);
    Refusal::with_detail(if spans { 34 } else { 33 }, place, count)
}

/// 30, at `(`.
pub fn one_instance(selector: Selector, open: Place) -> Read<Instance> {
    match selector {
        Selector::Instance(instance) => Ok(instance),
        Selector::Group { .. } => Err(Refusal::new(30, open)),
    }
}
