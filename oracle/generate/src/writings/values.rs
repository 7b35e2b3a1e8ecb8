//! Words for the roles of a row: good ones, often at a bound, and some that no row has.

use super::roles::{Role, EVERY_DAY, HIGHEST_ADAPTER, HIGHEST_OF_ARGS, LEAST_PERIOD, MOST_NUMBER, NO_TYPE};
use crate::rng::Rng;
use crate::sheet::Sheet;

/// The adapters of a sheet, as a call of a party with a primary sees them.
pub struct Adapters {
    primary: u32,
    /// The party's that are listed, the party's that are not, and the others', listed and not.
    listed: Vec<u32>,
    unlisted: Vec<u32>,
    others_listed: Vec<u32>,
    others: Vec<u32>,
}

impl Adapters {
    pub fn of(sheet: &Sheet, primary: u8) -> Adapters {
        let of = |own: bool, listed: bool| -> Vec<u32> {
            let fits = |adapter: &u8| sheet.is_own(*adapter) == own && sheet.listed.contains(adapter) == listed;
            (0..=255).filter(fits).map(u32::from).collect()
        };
        Adapters {
            primary: primary.into(),
            listed: of(true, true),
            unlisted: of(true, false),
            others_listed: of(false, true),
            others: of(false, false),
        }
    }

    /// One that can be written.
    pub fn reached(&self, rng: &mut Rng) -> u32 {
        if self.listed.is_empty() || rng.once_in(2) { self.primary } else { rng.pick(&self.listed) }
    }

    /// Any, mostly one that cannot be written.
    pub fn any(&self, rng: &mut Rng) -> u32 {
        let list = match rng.below(8) {
            0 => &self.listed,
            1..=3 => &self.unlisted,
            4 | 5 => &self.others_listed,
            6 => &self.others,
            _ => return self.primary,
        };
        if list.is_empty() { rng.within(0, 255) as u32 } else { rng.pick(list) }
    }
}

/// A number with a sign: small, or at a bound.
pub fn number(rng: &mut Rng) -> i64 {
    match rng.below(6) {
        0 => 0,
        1 => rng.pick(&[MOST_NUMBER, -MOST_NUMBER, MOST_NUMBER - 1, 1 - MOST_NUMBER]),
        2 => rng.pick(&[1, -1, 9, 10, -10, 999, 1_000, -100]),
        _ => rng.below(4_000) as i64 - 2_000,
    }
}

/// One that no text has.
pub fn wrong_number(rng: &mut Rng) -> i64 {
    let small = number(rng);
    match rng.below(7) {
        0 | 1 => rng.pick(&[MOST_NUMBER + 1, -MOST_NUMBER - 1]),
        2 => small + (1 << 32),
        3 => small - (1 << 32),
        4 => rng.pick(&[i64::MIN, i64::MAX, i64::from(u32::MAX), i64::from(i32::MIN), 1 << 63]),
        5 => small ^ (1 << rng.within(31, 63)),
        _ => rng.next().cast_signed(),
    }
}

/// Low and high.
pub fn halves(number: i64) -> [u32; 2] {
    let bits = number.cast_unsigned();
    [bits as u32, (bits >> 32) as u32]
}

fn milliseconds(rng: &mut Rng) -> u32 {
    match rng.below(5) {
        0 => rng.pick(&[0, 1, 999, 1_000, 1_001, u32::MAX, 1_000_000_000, 1_000_000_001, 999_999_999]),
        1 => 1_000_000_000 + rng.pick(&[7, 30, 1_000, 1_010, 1_100, 9_999]),
        2 => rng.next() as u32,
        3 => 1_000 * rng.within(1, 5_000) as u32,
        _ => rng.below(100_000) as u32,
    }
}

fn offset(rng: &mut Rng) -> u32 {
    match rng.below(6) {
        0..=2 => 0,
        3 => rng.pick(&[i32::MIN, i32::MAX, -1, 1, 1_000_000_000, 1_000_000_001, -1_000_000_000, -1_000_000_001]).cast_unsigned(),
        4 => rng.next() as u32,
        _ => ((rng.below(48) as i32 - 24) * 300_000).cast_unsigned(),
    }
}

/// A word that fits the role; of ranges and of numbers of 64 bits 0, for those are put in together.
pub fn good(rng: &mut Rng, role: Role, adapters: &Adapters) -> u32 {
    match role {
        Role::Code(count) => rng.within(1, count as usize) as u32,
        Role::Number(most) => match rng.below(4) {
            0 => rng.pick(&[0, 1, most - 1]),
            1 => most,
            _ => rng.within(0, most as usize) as u32,
        },
        Role::Adapter => adapters.reached(rng),
        Role::Broadcast => adapters.primary,
        Role::Type if rng.once_in(3) => NO_TYPE,
        Role::Type => rng.pick(&[0, 1, 2, 3, 4, 5, 30, HIGHEST_OF_ARGS]),
        Role::Days if rng.once_in(3) => EVERY_DAY,
        Role::Days if rng.once_in(3) => 1 << rng.below(7),
        Role::Days => rng.within(1, EVERY_DAY as usize) as u32,
        Role::Period => milliseconds(rng).max(LEAST_PERIOD),
        Role::Age => milliseconds(rng),
        Role::Offset => offset(rng),
        Role::Start(_) | Role::Length(_) | Role::Low | Role::High | Role::Unnamed => 0,
    }
}

/// The word just past the bound of a role that has one.
pub fn past(role: Role) -> Option<u32> {
    match role {
        Role::Code(count) => Some(count + 1),
        Role::Number(most) => Some(most + 1),
        Role::Adapter | Role::Broadcast => Some(HIGHEST_ADAPTER + 1),
        Role::Type => Some(HIGHEST_OF_ARGS + 1),
        Role::Days => Some(EVERY_DAY + 1),
        Role::Period => Some(LEAST_PERIOD - 1),
        _ => None,
    }
}

/// A word that does not fit the role, as far as there is one: just past a bound, or good but for its higher bits.
pub fn wrong(rng: &mut Rng, role: Role, word: u32) -> u32 {
    let far = [word | 1 << 8, word | 1 << 16, word | 1 << 31, u32::MAX, word | 1 << rng.within(7, 31)];
    match role {
        Role::Code(_) => if rng.once_in(3) { 0 } else { rng.pick(&far) },
        Role::Number(_) | Role::Adapter | Role::Broadcast => rng.pick(&far),
        Role::Type => rng.pick(&[NO_TYPE - 1, NO_TYPE - 1, 255, 256, 1 << 31]),
        Role::Days => rng.pick(&[0, 0, 255, word | 1 << 7, word | 1 << 8, word | 1 << 31, u32::MAX]),
        Role::Period => rng.pick(&[0, 1, 60]),
        Role::Age | Role::Offset | Role::Low | Role::High => rng.next() as u32,
        Role::Start(_) | Role::Length(_) => rng.pick(&[word.wrapping_add(1), word.wrapping_sub(1), 0, u32::MAX, 1 << 31, 1 << 16, 20_001, 49, 17]),
        Role::Unnamed => rng.pick(&[1, 1, 2, 255, 1 << 31, u32::MAX]),
    }
}
