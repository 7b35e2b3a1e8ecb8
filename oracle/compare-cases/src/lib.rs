//! The comparison of readers on generated cases: finding the first difference, making it small, and counting what
//! the cases covered.

pub mod batches;
pub mod conversions;
mod days;
mod durations;
pub mod external;
pub mod features;
pub mod held;
pub mod joins;
mod layout;
pub mod options;
mod parties;
mod profile;
pub mod readers;
mod records;
pub mod reflowed;
mod repeats;
pub mod run;
mod sheets;
pub mod shrink;
mod tally;
mod tokens;
mod topics;
pub mod vectors;
pub mod writings;

#[cfg(test)]
mod layout_tests;
#[cfg(test)]
mod tests;
