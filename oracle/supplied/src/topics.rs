//! The topics of earlier rules that a caller lends, document 02 §12, as the supplied Rust is given them.

use dali2rust_rules_model::{Rule, RuleSet, Trigger};

/// A rule set with a rule for each line that is not empty, which has the one trigger `mqtt` with it. None if the bytes are not
/// UTF-8.
pub fn earlier(lent: &[u8]) -> Option<RuleSet> {
    let lines = std::str::from_utf8(lent).ok()?.split('\n').filter(|line| !line.is_empty());
    Some(RuleSet { rules: lines.map(rule).collect(), ..RuleSet::empty(0) })
}

/// The reader looks at the triggers alone.
fn rule(topic: &str) -> Rule {
    Rule {
        name: String::new(),
        enabled: true,
        cooldown_ms: 0,
        hold_hcl: true,
        triggers: vec![Trigger::MqttMessage { topic: topic.to_owned(), payload: None }],
        conditions: Vec::new(),
        actions: Vec::new(),
    }
}
