//! Stands where the parser's action module stands. The two sections are private to the parser, and a child module may
//! call them: `sections` is that call. No action is ever read, so the rest stops the run.

use crate::cursor::Cursor;
use dali2rust_rules_model::{Action, CompileError, Condition, RuleSet, Trigger};

/// The name under which the text's two sections are read. It shows in messages only.
pub const RULE: &str = "text";

/// The reference of document 01: when_section with a rule set, then if_section. "Lent topics in UTF-8 form the reference's rule
/// set", document 02 §12.
pub fn sections(c: &mut Cursor<'_>, earlier: &RuleSet) -> Result<(Vec<Trigger>, Vec<Condition>), CompileError> {
    let triggers = super::when_section(c, RULE, earlier)?;
    let conditions = super::if_section(c, RULE)?;
    Ok((triggers, conditions))
}

#[derive(Default)]
pub struct Nesting;

pub fn actions_until_rbrace(_c: &mut Cursor<'_>, _nesting: Nesting) -> Result<Vec<Action>, CompileError> {
    panic!("actions were read, not the two sections")
}

pub fn action(_c: &mut Cursor<'_>, _nesting: Nesting) -> Result<Action, CompileError> {
    panic!("an action was read, not the two sections")
}
