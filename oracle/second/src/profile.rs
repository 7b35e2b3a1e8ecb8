//! The shop profile, document 02 §9: "Under the profile each lamp, group, device and input device in use is named, instance
//! groups aside, there is no broadcast, and no `event` reading."

use crate::refusal::{Place, Refusal};

/// What was read so far that the profile leaves out. "It refuses a numbered reference with 57, broadcast with 58, an `event`
/// reading with 59, at the id or the word; the earliest place decides."
#[derive(Debug, Default)]
pub struct LeftOut {
    found: Vec<Refusal>,
}

impl LeftOut {
    pub fn numbered(&mut self, id: Place) {
        self.found.push(Refusal::new(57, id));
    }

    pub fn broadcast(&mut self, word: Place) {
        self.found.push(Refusal::new(58, word));
    }

    pub fn event_reading(&mut self, word: Place) {
        self.found.push(Refusal::new(59, word));
    }

    pub fn earliest(&self) -> Option<Refusal> {
        self.found.iter().copied().min_by_key(|refusal| refusal.place)
    }
}
