//! The flat layout of entries (include/tergyosul.h).

mod entry;
mod lists;
mod row;

pub use entry::{condition, named_trigger, trigger};
pub use lists::{flat_of_call, flat_of_join};

use crate::model::{Choice, Comparison};

/// What stands for a type that is not given.
const NO_TYPE: u32 = u32::MAX;
/// The code of an event with data.
const RAW: u32 = 13;

const OCCUPANCY: &[Choice] = &["occupied", "vacant"];
const SIDES: &[Choice] = &["above", "below"];
const SUN: &[Choice] = &["sunrise", "sunset"];
const ON_OFF: &[Choice] = &["on", "off"];
const GROUP: &[Choice] = &["any_on", "all_off"];
const ONLINE: &[Choice] = &["offline", "online"];
const OVERRIDE: &[Choice] = &["starts", "clears"];
const HCL: &[Choice] = &["enabled", "overridden"];
const UP_DOWN: &[Choice] = &["up", "down"];
const COMPARISONS: &[Comparison] = &["eq", "ne", "ge", "le", "gt", "lt"];

/// The readings 1 to 23, by their first word and their property.
const READINGS: [(Choice, Choice); 23] = [
    ("lamp", "level"), ("lamp", "cct"), ("lamp", "is_on"), ("lamp", "last_level"),
    ("group", "any_on"), ("group", "all_off"), ("group", "member_count"),
    ("input", "occupied"), ("input", "light"), ("input", "position"), ("input", "last_event_age"),
    ("time", "now"), ("time", "hour"), ("time", "minute"), ("time", "weekday"),
    ("sun", "rise"), ("sun", "set"), ("sun", "is_up"),
    ("event", "value"), ("event", "device"), ("event", "instance"), ("event", "option"),
    ("var", ""),
];
