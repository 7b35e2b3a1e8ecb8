//! Document 02 §10: the comparison of readers on conversions of the previous owners' rows, both ways, and what these showed.

pub mod asked;
pub mod back;
pub mod coverage;
pub mod forward;
pub mod run;
mod sorts;

#[cfg(test)]
mod back_faults;
#[cfg(test)]
mod forward_faults;
#[cfg(test)]
mod tests;
