//! Sheets for conversions: in most of them few lamps, groups and devices have many rows.

use super::KINDS;
use crate::line_ends::Ends;
use crate::parties;
use crate::rng::Rng;
use crate::sheet::{self, adapter_number, Sheet, MOST_ROWS};

pub fn any(rng: &mut Rng) -> Sheet {
    match rng.below(60) {
        0 | 1 => many(rng),
        2 | 3 => long(rng),
        4..=10 => sheet::good(rng, 2),
        _ => sheet::crowded(rng),
    }
}

/// Names and adapters that are as long as can be.
fn long(rng: &mut Rng) -> Sheet {
    let adapters = vec![rng.pick(&[100, 254, 255])];
    let mut lines = vec!["primary,0".to_string(), format!("adapter,{}", adapters[0])];
    for nth in 0..rng.within(1, 6) {
        let (kind, _) = rng.pick(&KINDS);
        lines.push(format!("{},{},{},{}{nth}", kind.word(), adapters[0], rng.within(0, kind.last()), "x".repeat(47)));
    }
    let bytes = Ends::any(rng).join(rng, &lines);
    Sheet { bytes, listed: adapters.clone(), adapters, ..Sheet::default() }
}

/// As many rows as there may be, or nearly; most have a name of their own, or the same.
fn many(rng: &mut Rng) -> Sheet {
    let adapters = vec![adapter_number(rng), adapter_number(rng), rng.below(256) as u8];
    let shared = rng.once_in(2);
    let parties = if shared { parties::rows(rng, &adapters, 0) } else { Vec::new() };
    let listed: Vec<u8> = adapters.iter().copied().filter(|_| !rng.once_in(6)).collect();
    let mut lines = vec![format!("primary,{}", adapters[0])];
    lines.extend(listed.iter().map(|adapter| format!("adapter,{adapter}")));
    lines.extend(parties.iter().map(|(adapter, party)| format!("party,{adapter},{party}")));
    let count = 1 + rng.pick(&[MOST_ROWS, MOST_ROWS, MOST_ROWS, MOST_ROWS - 1, 300]);
    let same = rng.once_in(3).then(|| rng.pick(&KINDS).0);
    let on = if same.is_some() && rng.once_in(2) { &adapters[..1] } else { &adapters[..] };
    for nth in lines.len()..count {
        let (kind, adapter) = (same.unwrap_or_else(|| rng.pick(&KINDS).0), rng.pick(on));
        let name = match (rng.once_in(20), same) {
            (true, _) => rng.below(nth),
            (_, Some(_)) => 0,
            _ => nth,
        };
        lines.push(format!("{},{adapter},{},n{name}", kind.word(), rng.within(0, kind.last())));
    }
    // The rows with adapters and parties hold for those before them too.
    if rng.once_in(4) {
        lines[1..].reverse();
    }
    let bytes = Ends::any(rng).join(rng, &lines);
    Sheet { bytes, listed, primary: adapters[0], parties, adapters, ..Sheet::default() }
}
