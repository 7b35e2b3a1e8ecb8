//! A whole text: one to four `when` TRIGGER, then perhaps `if` CONDITION with up to three `and` CONDITION.

use crate::model::{Condition, Lists, Trigger};
use crate::reader::{Read, Reader};

const MOST: usize = 4;

impl<'a> Reader<'a> {
    /// Both sections, and 41, at the next token, if the text is not at an end after them.
    pub fn sections(&mut self) -> Read<Lists<'a>> {
        let triggers = self.when_section()?;
        let conditions = self.if_section()?;
        if self.peek().is_some() {
            return self.refuse(41);
        }
        Ok(Lists { triggers, conditions })
    }

    /// 37, at the fifth `when`; 38 if there is none at all.
    fn when_section(&mut self) -> Read<Vec<Trigger<'a>>> {
        let mut triggers = Vec::new();
        while self.at_word("when") {
            if triggers.len() == MOST {
                return self.refuse(37);
            }
            self.expect_word("when")?;
            triggers.push(self.trigger()?);
        }
        if triggers.is_empty() { self.refuse(38) } else { Ok(triggers) }
    }

    /// 39, at the fourth `and`.
    fn if_section(&mut self) -> Read<Vec<Condition<'a>>> {
        let mut conditions = Vec::new();
        if !self.take_word("if") {
            return Ok(conditions);
        }
        conditions.push(self.condition()?);
        while self.at_word("and") {
            if conditions.len() == MOST {
                return self.refuse(39);
            }
            self.expect_word("and")?;
            conditions.push(self.condition()?);
        }
        Ok(conditions)
    }
}
