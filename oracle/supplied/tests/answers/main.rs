//! What `answer` says, against the documents.

mod days;
mod first_questions;
mod pairs;
mod parties;
mod settled;
mod sheets;
mod told;
mod topics;
