//! Durations: the questions 16, 18 and 17 of document 01, as document 02 §2 has them.

use crate::lexer::{word, Fault, Run};

/// Both digit runs of a duration, each of which passed 12, and the milliseconds of its unit.
#[derive(Debug, Clone, Copy)]
pub struct Duration {
    whole: u128,
    fraction: u128,
    places: u32,
    unit: u128,
}

impl Duration {
    /// 16: is the unit one of ms, s, m, h?
    pub fn new(whole: Run, fraction: Run, unit: &str) -> Result<Duration, Fault> {
        let unit = match unit {
            "ms" => 1,
            "s" => 1_000,
            "m" => 60_000,
            "h" => 3_600_000,
            _ => return Err(16),
        };
        // A text has fewer digits than 32 bits can count.
        let places = u32::try_from(fraction.count).unwrap_or(u32::MAX);
        Ok(Duration { whole: whole.value.into(), fraction: fraction.value.into(), places, unit })
    }

    /// "A duration shall be judged by its exact amount alone, with any number of fractional digits": "18 is asked first,
    /// then 17, which now means only more than 4,294,967,295 ms."
    pub fn milliseconds(&self) -> Result<u32, Fault> {
        let part = self.fraction * self.unit;
        let part = match 10_u128.checked_pow(self.places) {
            _ if part == 0 => 0,
            Some(scale) if part.is_multiple_of(scale) => part / scale,
            // A power of ten past 128 bits is more than the part, so that less than a millisecond is left.
            _ => return Err(18),
        };
        word(self.whole * self.unit + part, 17)
    }

    /// Whether document 01's first 17 refuses it: "at most 19 fractional digits and, with d of them, whole part times
    /// unit times 10^d plus fraction times unit below 2^64".
    pub fn formerly_17(&self) -> bool {
        let scaled = || self.whole * self.unit * 10_u128.pow(self.places) + self.fraction * self.unit;
        self.places > 19 || scaled() > u64::MAX.into()
    }
}
