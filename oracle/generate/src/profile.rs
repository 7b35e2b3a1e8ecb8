//! Document 02 §9: texts for shop calls. Most of what they refer to is named, and they leave the profile nowhere, once or more often.

use crate::grammar::{Walk, PROFILE_READINGS};
use crate::rng::Rng;
use crate::sheet::{Kind, Row};

/// At one choice in how many the text of a shop call leaves the profile; 0 for never.
pub fn strays(rng: &mut Rng) -> usize {
    rng.pick(&[0, 0, 8, 3])
}

impl Walk<'_> {
    /// Whether the text keeps to the profile here: only that of a shop call does.
    pub(crate) fn keeps_profile(&mut self) -> bool {
        self.sheet.shop && (self.strays == 0 || !self.rng.once_in(self.strays))
    }

    /// A row whose name no other row of its kind has that the party sees.
    pub(crate) fn single_row(&mut self, kind: Kind) -> Option<Row> {
        let sheet = self.sheet;
        let rows: Vec<Row> = sheet.rows.iter().copied().filter(|row| row.kind == kind && sheet.is_own(row.adapter)).collect();
        let single = |row: &&Row| rows.iter().filter(|other| other.name == row.name).count() == 1;
        let single: Vec<Row> = rows.iter().filter(single).copied().collect();
        (!single.is_empty()).then(|| self.rng.pick(&single))
    }

    /// A text of what the profile is about, in which references, targets and readings of all sorts come one behind the other.
    pub fn profile_text(&mut self) {
        for _ in 0..self.rng.pick(&[1, 1, 1, 2, 2, 3, 4]) {
            self.say("when");
            match self.rng.below(16) {
                0..=3 => { self.say("hcl override"); self.choose(&["starts", "clears"]); self.say("for"); self.named_target() }
                4..=6 => self.say("http trigger"),
                7 => self.any_mqtt(),
                _ => self.trigger(),
            }
        }
        for at in 0..self.rng.pick(&[0, 1, 1, 2, 2, 3, 4]) {
            self.say(if at == 0 { "if" } else { "and" });
            self.profile_condition();
        }
    }

    fn profile_condition(&mut self) {
        match self.rng.below(6) {
            0 | 1 => { self.say("hcl is"); self.choose(&["enabled", "overridden"]); self.say("for"); self.named_target() }
            2 => { self.say("var ( \"v\" ) =="); self.profile_reading() }
            3 => { self.say("lamp"); self.reference(Kind::Lamp); self.say(". level >"); self.profile_reading() }
            4 => { self.say("input"); self.arguments(false); self.say(". light below"); self.profile_reading() }
            _ => self.condition(),
        }
    }

    /// A lamp or a group, and where the text leaves the profile, broadcast.
    fn named_target(&mut self) {
        if self.keeps_profile() { self.target() } else { self.say("broadcast") }
    }

    /// A reading, and where the text leaves the profile, one of `event`.
    fn profile_reading(&mut self) {
        if self.keeps_profile() {
            let reading = self.rng.pick(PROFILE_READINGS);
            reading(self);
        } else {
            self.say("event .");
            self.choose(&["value", "device", "instance", "option"]);
        }
        self.perhaps_added();
    }
}
