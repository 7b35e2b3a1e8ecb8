//! Rules and sets of them. The reader is given a set whose rules have no more than a trigger `mqtt` each.

use crate::action::Action;
use crate::condition::Condition;
use crate::trigger::Trigger;

#[derive(Debug, Clone, PartialEq, Eq)]
pub struct Rule {
    pub name: String,
    pub enabled: bool,
    pub cooldown_ms: u32,
    pub hold_hcl: bool,
    pub triggers: Vec<Trigger>,
    pub conditions: Vec<Condition>,
    pub actions: Vec<Action>,
}

#[derive(Debug, Clone, PartialEq, Eq)]
pub struct DefBlock {
    pub name: String,
    pub actions: Vec<Action>,
}

#[derive(Debug, Clone, PartialEq, Eq)]
pub struct RuleSet {
    pub lang_id: u8,
    pub rules: Vec<Rule>,
    pub blocks: Vec<DefBlock>,
}

impl RuleSet {
    pub fn empty(lang_id: u8) -> RuleSet {
        RuleSet { lang_id, rules: Vec::new(), blocks: Vec::new() }
    }

    pub fn rule(&self, name: &str) -> Option<&Rule> {
        self.rules.iter().find(|rule| rule.name == name)
    }

    pub fn block(&self, name: &str) -> Option<&DefBlock> {
        self.blocks.iter().find(|block| block.name == name)
    }
}

/// Part of a whole rule, which nothing here reads: stops the run.
pub fn default_cooldown_ms(_triggers: &[Trigger]) -> u32 {
    panic!("a whole rule was read, not its two sections")
}
