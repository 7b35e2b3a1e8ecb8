//! The shapes of actions that limits.rs takes apart. No action is ever built: the reader stops before `do`.

use crate::condition::Condition;
use crate::value::{ValueExpr, VarValue};

#[derive(Debug, Clone, PartialEq, Eq)]
pub enum Action {
    Scene(SceneAction),
    State(StateAction),
    Flow(FlowAction),
    Hcl(HclAction),
}

#[derive(Debug, Clone, PartialEq, Eq)]
pub enum SceneAction {
    Recall { scene: ValueExpr },
    Apply { scene: ValueExpr },
    Cycle { scenes: Vec<u8> },
}

#[derive(Debug, Clone, PartialEq, Eq)]
pub enum StateAction {
    VarSet { value: VarValue },
    MqttPublish { topic: String, payload: String },
    StatCount { name: String },
    RuleEnable { rule: String },
    RuleDisable { rule: String },
}

#[derive(Debug, Clone, PartialEq, Eq)]
pub enum FlowAction {
    Repeat { count: u8, actions: Vec<Action> },
    Conditional { condition: Condition, then_actions: Vec<Action>, else_actions: Vec<Action> },
    After { actions: Vec<Action> },
    Call { block: String },
}

#[derive(Debug, Clone, PartialEq, Eq)]
pub enum HclAction {
    Enable { schedule: String },
    Disable { schedule: String },
}
