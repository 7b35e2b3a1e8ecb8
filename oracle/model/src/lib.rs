//! Stand-in for the model crate that the supplied files lean on: plain data types whose shapes follow from how the
//! supplied files use them. Only limits.rs is the supplied file itself, built in place, unmodified.
//!
//! What belongs to a form that document 01 leaves out decides nothing here: it stops the run if it is ever asked.

pub mod action;
pub mod condition;
pub mod error;
/// The supplied file. Parts of it serve actions and whole rule sets, which nothing here builds.
#[path = "../../../docs/src/crates/dali2rust-rules-model/src/limits.rs"]
#[allow(dead_code, unreachable_patterns)]
pub mod limits;
pub mod refs;
pub mod rule;
pub mod time;
pub mod trigger;
pub mod value;

pub use action::Action;
pub use condition::{Cmp, Condition, ConditionKind, HclState, VarOperand};
pub use error::{CompileError, ModelError};
pub use refs::{
    DeviceRef, GroupRef, InputDeviceRef, InputGroupSelector, InputRef, InputSelector, LampRef, LightTarget,
    NameResolver,
};
pub use rule::{DefBlock, Rule, RuleSet};
pub use time::{DaySet, DurationMs, SolarEvent, TimeBound, TimeOfDay, Weekday};
pub use trigger::{
    distinct_mqtt_topics, CrossDirection, GroupAggregate, InputEventMatch, OccupancyState, OnlineTransition,
    OverrideTransition, PowerTransition, Trigger, TriggerKind,
};
pub use value::{Reading, ValueExpr, ValueKind, VarValue};
