//! What must hold for a rule to run.

use crate::refs::{DeviceRef, GroupRef, InputRef, LampRef, LightTarget};
use crate::time::{DaySet, DurationMs, TimeBound};
use crate::trigger::GroupAggregate;
use crate::value::ValueExpr;

#[derive(Debug, Clone, Copy, PartialEq, Eq)]
pub enum Cmp {
    Eq,
    Ne,
    Ge,
    Le,
    Gt,
    Lt,
}

#[derive(Debug, Clone, Copy, PartialEq, Eq)]
pub enum HclState {
    Enabled,
    Overridden,
}

#[derive(Debug, Clone, PartialEq, Eq)]
pub enum VarOperand {
    Text(String),
    Value(ValueExpr),
}

#[derive(Debug, Clone, PartialEq, Eq)]
pub enum Condition {
    TimeInRange { start: TimeBound, end: TimeBound },
    DayIn { days: DaySet },
    SunIs { up: bool },
    LampIs { lamp: LampRef, on: bool },
    LampLevel { lamp: LampRef, cmp: Cmp, value: ValueExpr },
    LampCct { lamp: LampRef, cmp: Cmp, value: ValueExpr },
    GroupState { group: GroupRef, state: GroupAggregate },
    InputOccupancy { input: InputRef, occupied: bool },
    InputLight { input: InputRef, above: bool, threshold: ValueExpr },
    HclState { target: LightTarget, state: HclState },
    DeviceOnline { device: DeviceRef },
    RuleEnabled { rule: String },
    LastFiredOlderThan { rule: String, than_ms: DurationMs },
    TimerRunning { timer: String },
    ControllerActive,
    VarCompare { name: String, cmp: Cmp, value: VarOperand },
}

#[derive(Debug, Clone, Copy, PartialEq, Eq)]
pub enum ConditionKind {
    TimeInRange,
    DayIn,
    SunIs,
    LampIs,
    LampLevel,
    LampCct,
    GroupState,
    InputOccupancy,
    InputLight,
    HclState,
    DeviceOnline,
    RuleEnabled,
    LastFiredOlderThan,
    TimerRunning,
    ControllerActive,
    VarCompare,
}
