//! §14: rules in three layouts each, which have the same tokens: one line, as little as possible between the tokens, and comments and line ends.

use super::{SHARED, SHEET};
use cases::{Case, Habit, LEAST_WORDS};

/// The layouts of each rule, in which it has the same tokens.
pub const LAYOUTS: &[[&str; 3]] = &[
    // accepted, with values in other words and with names
    [
        "when every 5s when at 7:05 on fri..mon if lamp(8).level >= 0 and var(\"a b\") == -5",
        "when every 5000ms when at 07:05on fri..mon if lamp(08).level>=00 and var(\"a b\")==-5",
        "when # every 6s\n every\r\n5.000s when\tat 7:05\u{a0}on fri\n..\nmon # , tue\nif lamp\n(\n8\n)\n.\nlevel\n>=\n0 and var (\u{2028}\"a b\"\u{3000}) == - 5 # \u{e9}",
    ],
    [
        "when timer(\"t\") fires when rule(\"r\") fails when mqtt \"m\" if last_fired(\"l\") older than 60m",
        "when timer(\"t\")fires when rule(\"r\")fails when mqtt\"m\"if last_fired(\"l\")older than 1h",
        "#\n#\"\nwhen timer\n(\"t\"\n)\nfires when rule # (\n(\"r\") fails\n\nwhen mqtt\n\"m\" if last_fired(\u{85}\"l\" ) older than\n3600.000s",
    ],
    // a detail, and 63 in the default call alone
    ["when lamp(\"Twice\") turns on", "when lamp(\"Twice\")turns on", "when lamp # (\n(\n\n \"Twice\"\n)\nturns on"],
    ["when input(dev=3, dev=5, inst=0) is press", "when input(dev=3,dev=5,inst=0)is press", "when input(dev = 3 # ,\n, dev\n= 5\n,\tinst = 0 )\nis\npress\n"],
    // the shop profile
    ["when hcl override starts for broadcast if lamp(3) is on", "when hcl override starts for broadcast if lamp(3)is on", "when hcl\noverride\nstarts for # lamp(3)\nbroadcast if lamp ( 3 ) is on"],
    // refused at a token and at the end
    ["when lamp(64) turns on", "when lamp(064)turns on", "when lamp(\n#\u{e9}\n  64\n) turns on"],
    ["when at 7:05 on mon, foo 5", "when at 7:05on mon,foo 5", "when at 7:05 on mon\n,\n\tfoo\n5"],
    ["when input(dev=1,", "when input(dev=1,", "when\ninput (\ndev\n=\n1\n,\n# \u{e9}"],
    ["when http trigger if", "when http trigger if", "# a\nwhen http trigger\n\n if #"],
    ["", " ", "# \u{e9}\n\n#"],
];

/// Each rule in each layout and habit, and one of them where 2, 3 and 53 come first.
pub fn cases() -> Vec<Case> {
    let mut cases = Vec::new();
    for layouts in LAYOUTS {
        for habit in [Habit::Rule, Habit::Archive, Habit::Shop] {
            cases.extend(layouts.iter().map(|text| Case::new(0, LEAST_WORDS, *text, SHARED).with_party(0, 0).with_habit(habit)));
        }
    }
    for text in LAYOUTS[2] {
        let call = Case::new(0, LEAST_WORDS, text, SHARED).with_habit(Habit::Rule);
        cases.extend([
            Case { words: LEAST_WORDS - 1, ..call.with_party(0, 0) },
            Case { sheet: [SHEET, b"\n"].concat(), ..call.with_party(0, 0) },
            call.with_party(0, 1),
        ]);
    }
    cases
}
