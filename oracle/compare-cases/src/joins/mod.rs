//! Document 02 §3: the comparison of readers on joins, and what these showed.

pub mod calls;
pub mod coverage;
mod fields;
pub mod run;
mod sorts;

#[cfg(test)]
mod faults;
#[cfg(test)]
mod tests;
