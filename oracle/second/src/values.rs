//! Times, comparisons, values and readings.

use crate::lexer::Kind as TokenKind;
use crate::model::{Bound, Choice, Comparison, Reading, Solar, Value};
use crate::reader::{Read, Reader};
use crate::refusal::Refusal;
use crate::sheet::Kind;

impl<'a> Reader<'a> {
    /// A time bound is a TIME or a SOLAR.
    pub fn bound(&mut self) -> Read<Bound> {
        if self.at_kind(TokenKind::Time) {
            return Ok(Bound::Clock(self.expect(TokenKind::Time)?.number));
        }
        self.solar().map(Bound::Solar)
    }

    /// SOLAR: sunrise or sunset, perhaps + or - DURATION.
    fn solar(&mut self) -> Read<Solar> {
        let event = self.choice(&["sunrise", "sunset"])?;
        let offset = match self.sign() {
            Some(sign) => self.solar_offset(sign)?,
            None => 0,
        };
        Ok(Solar { event, offset })
    }

    /// 36, at the duration: the signed offset is judged, so that -2,147,483,648 is accepted.
    fn solar_offset(&mut self, sign: i64) -> Read<i32> {
        let token = self.expect(TokenKind::Duration)?;
        let offset = sign * i64::from(token.number);
        i32::try_from(offset).map_err(|_| Refusal::new(36, token.place))
    }

    /// 1 for `+` and -1 for `-`, if one of them stands here.
    fn sign(&mut self) -> Option<i64> {
        if self.take_kind(TokenKind::Plus) {
            Some(1)
        } else if self.take_kind(TokenKind::Minus) {
            Some(-1)
        } else {
            None
        }
    }

    pub fn comparison(&mut self) -> Read<Comparison> {
        const COMPARISONS: [(TokenKind, Comparison); 6] = [
            (TokenKind::Equal, "eq"),
            (TokenKind::NotEqual, "ne"),
            (TokenKind::AtLeast, "ge"),
            (TokenKind::AtMost, "le"),
            (TokenKind::Above, "gt"),
            (TokenKind::Below, "lt"),
        ];
        match COMPARISONS.iter().find(|(kind, _)| self.at_kind(*kind)) {
            Some((kind, name)) => self.expect(*kind).map(|_| *name),
            None => self.refuse(20),
        }
    }

    /// VALUE: an integer with perhaps one sign, or a reading with perhaps + or - an integer.
    pub fn value(&mut self) -> Read<Value<'a>> {
        if let Some(sign) = self.sign() {
            return self.signed(sign).map(Value::Literal);
        }
        if self.at_kind(TokenKind::Integer) {
            return self.signed(1).map(Value::Literal);
        }
        let reading = self.reading()?;
        match self.sign() {
            Some(sign) => Ok(Value::Offset(reading, self.signed(sign)?)),
            None => Ok(Value::Reading(reading)),
        }
    }

    fn signed(&mut self, sign: i64) -> Read<i64> {
        let token = self.expect(TokenKind::Integer)?;
        Ok(sign * i64::from(token.number))
    }

    /// A reading; a word that begins none is 20, since a VALUE begins here.
    fn reading(&mut self) -> Read<Reading<'a>> {
        let place = self.place();
        if self.take_word("lamp") {
            let lamp = self.reference(Kind::Lamp)?;
            Ok(Reading::Lamp(lamp, self.property(&["level", "cct", "is_on", "last_level"])?))
        } else if self.take_word("group") {
            let group = self.reference(Kind::Group)?;
            Ok(Reading::Group(group, self.property(&["any_on", "all_off", "member_count"])?))
        } else if self.take_word("input") {
            let input = self.instance()?;
            Ok(Reading::Input(input, self.property(&["occupied", "light", "position", "last_event_age"])?))
        } else if self.take_word("time") {
            Ok(Reading::Plain("time", self.property(&["now", "hour", "minute", "weekday"])?))
        } else if self.take_word("sun") {
            Ok(Reading::Plain("sun", self.property(&["rise", "set", "is_up"])?))
        } else if self.take_word("event") {
            self.left_out.event_reading(place);
            Ok(Reading::Plain("event", self.property(&["value", "device", "instance", "option"])?))
        } else {
            self.expect_word("var")?;
            self.quoted().map(Reading::Var)
        }
    }

    /// A point and one of the properties.
    fn property(&mut self, properties: &[Choice]) -> Read<Choice> {
        self.expect(TokenKind::Point)?;
        self.choice(properties)
    }
}
