//! Times, durations and days.

#[derive(Debug, Clone, Copy, PartialEq, Eq)]
pub struct DurationMs(pub u32);

#[derive(Debug, Clone, Copy, PartialEq, Eq)]
pub struct TimeOfDay {
    pub hour: u8,
    pub minute: u8,
}

#[derive(Debug, Clone, Copy, PartialEq, Eq)]
pub enum SolarEvent {
    Sunrise,
    Sunset,
}

#[derive(Debug, Clone, Copy, PartialEq, Eq)]
pub enum TimeBound {
    Clock(TimeOfDay),
    Solar { event: SolarEvent, offset_ms: i32 },
}

/// The days of a form outside the domain. Without that form a trigger has all days; which days a set holds is not modelled.
#[derive(Debug, Clone, Copy, PartialEq, Eq)]
pub struct DaySet;

/// A day of such a form; there is no value of it.
#[derive(Debug, Clone, Copy, PartialEq, Eq)]
pub enum Weekday {}

impl DaySet {
    pub const ALL: DaySet = DaySet;

    /// Asked for only where a set of days is read, so only in such a form: stops the run.
    pub fn empty() -> DaySet {
        panic!("the supplied Rust went on into a form outside the domain: a set of days")
    }

    pub fn insert(&mut self, day: Weekday) {
        match day {}
    }

    pub fn insert_range(&mut self, from: Weekday, _to: Weekday) {
        match from {}
    }
}

impl Weekday {
    /// See `DaySet::empty`.
    pub fn from_name(name: &str) -> Option<Weekday> {
        panic!("the supplied Rust went on into a form outside the domain: the day {name:?}")
    }
}
