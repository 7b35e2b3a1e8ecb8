//! Document 02 §7: the comparison of readers on lists to be written, and what these showed.

pub mod coverage;
mod phrases;
pub mod reread;
pub mod run;
mod sorts;
pub mod way;

#[cfg(test)]
mod faults;
#[cfg(test)]
mod tests;
