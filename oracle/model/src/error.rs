//! Refusals.

use std::fmt;

/// A refusal of the supplied lexer or parser: a place and a message, kept as they are given.
#[derive(Debug, Clone, PartialEq, Eq)]
pub struct CompileError {
    pub line: u32,
    pub column: u32,
    pub message: String,
}

impl CompileError {
    pub fn at(line: u32, column: u32, message: impl Into<String>) -> CompileError {
        CompileError { line, column, message: message.into() }
    }
}

/// A refusal of a whole rule set by limits.rs, which nothing here asks.
#[derive(Debug, Clone, PartialEq, Eq)]
pub enum ModelError {
    CallDepthExceeded { rule: String, block: String },
    DuplicateBlockName { name: String },
    DuplicateRuleName { name: String },
    EveryPeriodTooShort { rule: String, period_ms: u32 },
    ExpandedActionsExceeded { rule: String, count: usize },
    MqttPayloadTooLong { rule: String, bytes: usize },
    MqttTopicNotExact { rule: String, topic: String },
    MqttTopicTooLong { rule: String, bytes: usize },
    NameTooLong { name: String },
    NestedAfter { rule: String },
    NestedConditional { rule: String },
    NestedRepeat { rule: String },
    NoActions { owner: String },
    NoTriggers { rule: String },
    RepeatCountOutOfRange { rule: String, count: u8 },
    SceneCycleTooLong { rule: String, count: usize },
    SceneOutOfRange { rule: String, scene: u8 },
    ScheduleIdTooLong { rule: String, bytes: usize },
    StatNameNotPrintable { owner: String, name: String },
    StatNameTooLong { owner: String, bytes: usize },
    TooManyActions { rule: String, count: usize },
    TooManyBlockActions { block: String, count: usize },
    TooManyBlocks { count: usize },
    TooManyConditions { rule: String, count: usize },
    TooManyMqttTopics { rule: String, count: usize },
    TooManyRules { count: usize },
    TooManyStatNames { owner: String, count: usize },
    TooManyTriggers { rule: String, count: usize },
    UnknownRuleReference { rule: String, referenced_by: String },
    UnresolvedBlock { block: String, referenced_by: Vec<String> },
    VarTextTooLong { rule: String, text: String },
}

impl ModelError {
    /// The name that the refusal hangs on. Nothing here asks for it, so none is given.
    pub fn anchor(&self) -> Option<&str> {
        None
    }
}

impl fmt::Display for ModelError {
    fn fmt(&self, f: &mut fmt::Formatter<'_>) -> fmt::Result {
        fmt::Debug::fmt(self, f)
    }
}
