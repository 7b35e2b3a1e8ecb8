//! Values that a condition compares with.

use crate::refs::{GroupRef, InputRef, LampRef};

#[derive(Debug, Clone, PartialEq, Eq)]
pub enum Reading {
    LampLevel { lamp: LampRef },
    LampCct { lamp: LampRef },
    LampIsOn { lamp: LampRef },
    LampLastLevel { lamp: LampRef },
    GroupAnyOn { group: GroupRef },
    GroupAllOff { group: GroupRef },
    GroupMemberCount { group: GroupRef },
    InputOccupied { input: InputRef },
    InputLight { input: InputRef },
    InputPosition { input: InputRef },
    InputLastEventAge { input: InputRef },
    TimeNow,
    TimeHour,
    TimeMinute,
    TimeWeekday,
    SunRise,
    SunSet,
    SunIsUp,
    EventValue,
    EventDevice,
    EventInstance,
    EventOption,
    Var { name: String },
}

#[derive(Debug, Clone, PartialEq, Eq)]
pub enum ValueExpr {
    Literal(i64),
    Reading(Reading),
    Offset { reading: Reading, delta: i32 },
}

/// What an action sets a var to; only limits.rs names it.
#[derive(Debug, Clone, PartialEq, Eq)]
pub enum VarValue {
    Text(String),
}

/// Named by expr.rs in a list that nothing here reads; its members are not known, and none is needed.
#[derive(Debug, Clone, Copy, PartialEq, Eq)]
pub enum ValueKind {}

impl ValueKind {
    pub const ALL: [ValueKind; 0] = [];
}
