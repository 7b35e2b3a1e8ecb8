//! What a case covered, read off its answer in the replay format, and off its text for what the answer does not say.

use crate::batches::Counts;
use crate::{days, durations, layout, parties, profile, records, repeats, sheets, topics};
use cases::Case;
use std::io::{self, Write};

const TOKENS: &[&str] = &[
    "1", "2", "3", "4", "5", "6", "7", "8", "9", "10", "11", "12", "13", "14", "15", "16", "17", "18", "19", "20", "21", "22",
];

/// The refusals of a call: of document 01, without 5 to 9 and 14, and of document 02.
pub const REFUSALS: &[&str] = &[
    "1", "2", "3", "4", "10", "11", "12", "13", "15", "16", "17", "18", "19", "20", "21", "22", "23", "24", "25", "26", "27",
    "28", "29", "30", "31", "32", "33", "34", "35", "36", "37", "38", "39", "40", "41", "50", "53", "57", "58", "59", "63", "64",
    "65", "66",
];

/// Those among them that only a shop call gives.
pub const OF_THE_PROFILE: &[&str] = &["57", "58", "59"];

pub const TRIGGERS: &[&str] = &[
    "input_event", "input_occupancy", "input_light_cross", "input_position_change", "input_device_power_cycled",
    "input_device_manual_config_changed", "at_time", "at_solar", "every", "lamp_turns", "lamp_level_cross",
    "group_becomes", "scene_recalled", "device_online", "hcl_override", "timer_fires", "controller_starts",
    "controller_becomes_active", "rule_fails", "http_trigger", "mqtt",
];

pub const CONDITIONS: &[&str] = &[
    "time_in_range", "day_in", "sun_is", "lamp_is", "lamp_level", "lamp_cct", "group_state", "input_occupancy", "input_light",
    "hcl_state", "device_online", "rule_enabled", "last_fired_older_than", "timer_running", "controller_active",
    "var_compare",
];

const READINGS: &[&str] = &[
    "lamp_level", "lamp_cct", "lamp_is_on", "lamp_last_level", "group_any_on", "group_all_off", "group_member_count",
    "input_occupied", "input_light", "input_position", "input_last_event_age", "time_now", "time_hour", "time_minute",
    "time_weekday", "sun_rise", "sun_set", "sun_is_up", "event_value", "event_device", "event_instance", "event_option",
    "var",
];

const EVENTS: &[&str] = &[
    "press", "release", "short_press", "double_press", "long_press_start", "long_press_repeat", "long_press_stop",
    "button_free", "button_stuck", "movement", "no_movement", "any_event", "raw",
];

const SELECTORS: &[&str] = &["instance", "group", "group with type"];
const TARGETS: &[&str] = &["lamp", "group", "broadcast"];
const BOUNDS: &[&str] = &["clock", "sunrise", "sunset"];
const COMPARISONS: &[&str] = &["eq", "ne", "ge", "le", "gt", "lt"];
const VALUES: &[&str] = &["literal", "reading", "offset", "text"];

/// The words that a trigger or condition chooses from.
const CHOICES: &[&str] = &[
    "T input_occupancy occupied", "T input_occupancy vacant", "T input_light_cross above", "T input_light_cross below",
    "T at_solar sunrise", "T at_solar sunset", "T lamp_turns on", "T lamp_turns off", "T lamp_level_cross above",
    "T lamp_level_cross below", "T group_becomes any_on", "T group_becomes all_off", "T device_online goes_offline",
    "T device_online comes_online", "T hcl_override starts", "T hcl_override clears", "C sun_is up", "C sun_is down",
    "C lamp_is on", "C lamp_is off", "C group_state any_on", "C group_state all_off", "C input_occupancy occupied",
    "C input_occupancy vacant", "C input_light above", "C input_light below", "C hcl_state enabled",
    "C hcl_state overridden",
];

const COUNTS: &[&str] = &["T 1", "T 2", "T 3", "T 4", "C 0", "C 1", "C 2", "C 3", "C 4"];

const GROUPS: &[(&str, &[&str])] = &[
    ("refused", REFUSALS), ("token", TOKENS), ("trigger", TRIGGERS), ("condition", CONDITIONS), ("reading", READINGS),
    ("event", EVENTS), ("selector", SELECTORS), ("target", TARGETS), ("bound", BOUNDS), ("comparison", COMPARISONS),
    ("value", VALUES), ("choice", CHOICES), ("count", COUNTS), ("duration", durations::SORTS),
    ("buffer", records::SORTS), ("repeat", repeats::SORTS), ("party", parties::SORTS), ("topic", topics::SORTS),
    ("profile", profile::SORTS), ("sheet", sheets::SORTS), ("day", days::SORTS), ("line", repeats::LINES),
];

/// The places of the groups in `GROUPS`.
const REFUSED: usize = 0;
const TOKEN: usize = 1;
const TRIGGER: usize = 2;
const CONDITION: usize = 3;
const READING: usize = 4;
const EVENT: usize = 5;
const SELECTOR: usize = 6;
const TARGET: usize = 7;
const BOUND: usize = 8;
const COMPARISON: usize = 9;
const VALUE: usize = 10;
const CHOICE: usize = 11;
const COUNT: usize = 12;
const DURATION: usize = 13;
const BUFFER: usize = 14;
const REPEAT: usize = 15;
const PARTY: usize = 16;
const TOPIC: usize = 17;
const PROFILE: usize = 18;
const SHEET: usize = 19;
const DAY: usize = 20;
const LINE: usize = 21;

/// Room for the members.
const WORDS: usize = 13;
pub const MOST_FEATURES: usize = WORDS * 64;

/// The set of what one answer shows; each member is numbered along `GROUPS`.
#[derive(Debug, Clone, Copy, Default, PartialEq, Eq, Hash, PartialOrd, Ord)]
pub struct Features([u64; WORDS]);

/// The number of members there are.
pub fn feature_count() -> usize {
    GROUPS.iter().map(|(_, words)| words.len()).sum()
}

/// The name of a member, such as `trigger every`.
pub fn feature_name(feature: usize) -> String {
    let mut left = feature;
    for (group, words) in GROUPS {
        if left < words.len() {
            return format!("{group} {}", words[left]);
        }
        left -= words.len();
    }
    panic!("no feature {feature}");
}

impl Features {
    pub fn of(case: &Case, answer: &str) -> Features {
        let mut set = Features::default();
        durations::sorts(case, answer).into_iter().for_each(|sort| set.mark(DURATION, Some(sort)));
        records::sorts(case, answer).into_iter().for_each(|sort| set.mark(BUFFER, Some(sort)));
        repeats::sorts(case, answer).iter().for_each(|sort| set.mark(REPEAT, Some(sort)));
        parties::sorts(case, answer).into_iter().for_each(|sort| set.mark(PARTY, Some(sort)));
        topics::sorts(case, answer).iter().for_each(|sort| set.mark(TOPIC, Some(sort)));
        profile::sorts(case, answer).iter().for_each(|sort| set.mark(PROFILE, Some(sort)));
        sheets::sorts(case, answer).iter().for_each(|sort| set.mark(SHEET, Some(sort)));
        days::sorts(case, answer).iter().for_each(|sort| set.mark(DAY, Some(sort)));
        set.mark(LINE, Some(repeats::line(case)));
        for line in answer.lines() {
            let mut fields = line.split(' ');
            match fields.next() {
                Some("token") => set.mark(TOKEN, fields.next()),
                Some("refused") => set.mark(REFUSED, fields.next()),
                Some("accepted") => set.accepted(fields.next(), fields.next()),
                Some("T") => set.trigger(&fields.collect::<Vec<_>>()),
                Some("C") => set.condition(&fields.collect::<Vec<_>>()),
                _ => {}
            }
        }
        set
    }

    pub fn contains(&self, feature: usize) -> bool {
        self.0[feature / 64] >> (feature % 64) & 1 == 1
    }

    pub fn members(self) -> impl Iterator<Item = usize> {
        (0..feature_count()).filter(move |&feature| self.contains(feature))
    }

    /// Adds a word of a group; a word that the group has not is left to the comparison.
    fn mark(&mut self, group: usize, word: Option<&str>) {
        let Some(at) = word.and_then(|word| GROUPS[group].1.iter().position(|&w| w == word)) else { return };
        let feature = at + GROUPS[..group].iter().map(|(_, words)| words.len()).sum::<usize>();
        self.0[feature / 64] |= 1 << (feature % 64);
    }

    fn accepted(&mut self, triggers: Option<&str>, conditions: Option<&str>) {
        self.mark(COUNT, triggers.map(|n| format!("T {n}")).as_deref());
        self.mark(COUNT, conditions.map(|n| format!("C {n}")).as_deref());
    }

    fn choice(&mut self, letter: &str, fields: &[&str]) {
        for word in fields.iter().skip(1) {
            self.mark(CHOICE, Some(&format!("{letter} {} {word}", fields[0])));
        }
    }

    fn trigger(&mut self, fields: &[&str]) {
        self.mark(TRIGGER, fields.first().copied());
        match fields {
            ["input_event", "instance", _, _, _, event, ..] => {
                self.mark(SELECTOR, Some("instance"));
                self.mark(EVENT, Some(event));
            }
            ["input_event", "group", _, _, kind, event, ..] => {
                self.mark(SELECTOR, Some(if *kind == "-" { "group" } else { "group with type" }));
                self.mark(EVENT, Some(event));
            }
            ["hcl_override", target, ..] => self.mark(TARGET, Some(target)),
            _ => {}
        }
        self.choice("T", fields);
    }

    fn condition(&mut self, fields: &[&str]) {
        self.mark(CONDITION, fields.first().copied());
        match fields {
            ["time_in_range", bounds @ ..] => bounds.iter().for_each(|word| self.mark(BOUND, Some(word))),
            ["lamp_level" | "lamp_cct", _, _, comparison, value @ ..] => {
                self.mark(COMPARISON, Some(comparison));
                self.value(value);
            }
            ["input_light", _, _, _, _, value @ ..] => self.value(value),
            ["hcl_state", target, ..] => self.mark(TARGET, Some(target)),
            ["var_compare", _, comparison, value @ ..] => {
                self.mark(COMPARISON, Some(comparison));
                self.value(if value.first() == Some(&"value") { &value[1..] } else { value });
            }
            _ => {}
        }
        self.choice("C", fields);
    }

    fn value(&mut self, fields: &[&str]) {
        self.mark(VALUE, fields.first().copied());
        if let ["reading" | "offset", reading, ..] = fields {
            self.mark(READING, Some(reading));
        }
    }
}

/// How many cases showed each feature.
#[derive(Debug, Clone)]
pub struct Coverage {
    counts: Vec<u64>,
    pub cases: u64,
    pub in_domain: u64,
    pub accepted: u64,
    pub refused: u64,
    /// Cases that were compared with the same call on a sheet beside theirs.
    pub beside: u64,
    /// Cases that were compared with the same call on a reflowed text, and how many of them showed each sort of layout. These are no
    /// features: a case alone does not show them.
    pub reflowed: u64,
    layouts: Vec<u64>,
}

impl Default for Coverage {
    fn default() -> Coverage {
        let (counts, layouts) = (vec![0; feature_count()], vec![0; layout::SORTS.len()]);
        Coverage { counts, cases: 0, in_domain: 0, accepted: 0, refused: 0, beside: 0, reflowed: 0, layouts }
    }
}

impl Counts for Coverage {
    fn merge(&mut self, other: &Coverage) {
        self.counts.iter_mut().zip(&other.counts).for_each(|(a, b)| *a += b);
        self.layouts.iter_mut().zip(&other.layouts).for_each(|(a, b)| *a += b);
        self.cases += other.cases;
        self.in_domain += other.in_domain;
        self.accepted += other.accepted;
        self.refused += other.refused;
        self.beside += other.beside;
        self.reflowed += other.reflowed;
    }
}

impl Coverage {
    pub fn add(&mut self, case: &Case, answer: &str, in_domain: bool) {
        let set = Features::of(case, answer);
        set.members().for_each(|feature| self.counts[feature] += 1);
        self.cases += 1;
        self.in_domain += u64::from(in_domain);
        let accepted = answer.lines().any(|line| line.starts_with("accepted "));
        self.accepted += u64::from(accepted);
        self.refused += u64::from(!accepted);
    }

    /// A case that was compared on a reflowed text, with the sorts of layout that both texts show.
    pub fn add_reflowed(&mut self, sorts: &[String]) {
        let shown = |sort: &&str| sorts.iter().any(|shown| shown == sort);
        layout::SORTS.iter().zip(&mut self.layouts).for_each(|(sort, count)| *count += u64::from(shown(sort)));
        self.reflowed += 1;
    }

    /// The names of what no case showed.
    pub fn zeros(&self) -> Vec<String> {
        let features = (0..self.counts.len()).filter(|&at| self.counts[at] == 0).map(feature_name);
        let layouts = layout::SORTS.iter().zip(&self.layouts).filter(|(_, count)| **count == 0).map(|(sort, _)| format!("layout {sort}"));
        let pairs = [(self.beside, "a sheet beside"), (self.reflowed, "a reflowed text")];
        let pairs = pairs.into_iter().filter(|(count, _)| *count == 0).map(|(_, name)| name.to_string());
        features.chain(layouts).chain(pairs).collect()
    }

    pub fn print(&self, out: &mut impl Write) -> io::Result<()> {
        let mut at = 0;
        for (group, words) in GROUPS {
            write!(out, "{group}:")?;
            for word in *words {
                write!(out, " {word}={}", self.counts[at])?;
                at += 1;
            }
            writeln!(out)?;
        }
        write!(out, "layout:")?;
        for (sort, count) in layout::SORTS.iter().zip(&self.layouts) {
            write!(out, " {sort}={count}")?;
        }
        let Coverage { cases, in_domain, accepted, refused, beside, reflowed, .. } = self;
        writeln!(out)?;
        writeln!(out, "{cases} cases: {in_domain} in the domain, {accepted} accepted, {refused} refused")?;
        writeln!(out, "{beside} of them compared with the same call on a sheet beside theirs")?;
        writeln!(out, "{reflowed} of them compared with the same call on a reflowed text")
    }
}
