//! Random walks over document 01's grammar, with what document 02 has added to it.
//!
//! A careful walk writes only what the grammar has, with numbers in range and adapters that are listed; whether its
//! names have one row in scope is left to chance, and its input arguments may repeat (repeats.rs). A walk that slips
//! does, here and there, what the reader must refuse: a word that is no choice, a number one past the last, a name too
//! long, a part left out or too many.

use crate::durations;
use crate::profile;
use crate::rng::Rng;
use crate::sheet::{Kind, Row, Sheet, KINDS};
use crate::spell::Token;
use crate::vocabulary::{
    DURATIONS, LONG_NAMES, LONG_VAR_TEXTS, NAMES, TIMES, VAR_TEXTS, WORDS, WRONG_DURATIONS, WRONG_TIMES,
};
use std::borrow::Cow;

pub struct Walk<'a> {
    pub rng: &'a mut Rng,
    pub sheet: &'a Sheet,
    /// At one choice in how many this walk slips; 0 for never.
    pub slips: usize,
    /// At one choice in how many a text that is to keep to the shop profile leaves it; 0 for never.
    pub strays: usize,
    pub out: Vec<Token>,
    /// Where the text is to end early, counted in tokens.
    pub end: Option<usize>,
}

/// How often a walk slips: not at all, mostly once in a text, or several times, so that it shows which fault is met
/// first.
pub const NEVER: usize = 0;
pub const SELDOM: usize = 16;
pub const OFTEN: usize = 4;

/// A name between its quotes.
pub fn quoted(name: &[u8]) -> Token {
    let mut token = Vec::with_capacity(name.len() + 2);
    token.push(b'"');
    token.extend_from_slice(name);
    token.push(b'"');
    Cow::Owned(token)
}

const EVENTS: &[&str] = &[
    "press", "release", "short_press", "double_press", "long_press_start", "long_press_repeat", "long_press_stop",
    "button_free", "button_stuck", "movement", "no_movement", "any_event",
];

/// Durations that are long enough for `every`, and some that are too short.
const PERIODS: &[&str] = &[
    "1000ms", "1s", "1.0s", "5m", "1h", "1193h", "4294967.295s", "1.00000000000000000000s", "1000.00000000000000000ms",
];
const SHORT_PERIODS: &[&str] = &[
    "0s", "999ms", "0.999s", "1ms", "0.0001h", "0.00000000000000000000h", "999.00000000000000000000ms", "0.999000000s",
];

const TRIGGERS: &[fn(&mut Walk)] = &[
    |w| { w.say("timer"); w.name_in_parentheses(); w.say("fires") },
    |w| { w.say("rule"); w.name_in_parentheses(); w.say("fails") },
    |w| w.say("controller starts"),
    |w| w.say("controller becomes active"),
    |w| w.say("http trigger"),
    |w| w.mqtt(),
    |w| w.mqtt(),
    |w| { w.say("every"); w.period() },
    |w| { w.say("at"); w.time(); w.perhaps_on_days(2) },
    |w| { w.say("at"); w.solar(); w.perhaps_on_days(2) },
    |w| w.scene(),
    |w| { w.say("device"); w.reference(Kind::Device); w.say("goes offline") },
    |w| { w.say("device"); w.reference(Kind::Device); w.say("comes online") },
    |w| { w.say("group"); w.reference(Kind::Group); w.say("becomes"); w.choose(&["any_on", "all_off"]) },
    |w| { w.say("hcl override"); w.choose(&["starts", "clears"]); w.say("for"); w.target() },
    |w| { w.say("lamp"); w.reference(Kind::Lamp); w.say("turns"); w.choose(&["on", "off"]) },
    |w| { w.say("lamp"); w.reference(Kind::Lamp); w.say(". level crosses"); w.choose(&["above", "below"]); w.number(254) },
    |w| w.input_device(),
    |w| { w.say("input"); w.arguments(true); w.say("is"); w.event() },
    |w| { w.say("input"); w.arguments(true); w.say("is"); w.event() },
    |w| { w.say("input"); w.arguments(true); w.say("is"); w.event() },
    |w| { w.say("input"); w.arguments(false); w.say("becomes"); w.choose(&["occupied", "vacant"]) },
    |w| { w.say("input"); w.arguments(false); w.say(". light crosses"); w.choose(&["above", "below"]); w.number(1023) },
    |w| { w.say("input"); w.arguments(false); w.say(". position changes") },
];

const CONDITIONS: &[fn(&mut Walk)] = &[
    |w| w.say("controller is active"),
    |w| { w.say("timer"); w.name_in_parentheses(); w.say("is running") },
    |w| { w.say("rule"); w.name_in_parentheses(); w.say("is enabled") },
    |w| { w.say("last_fired"); w.name_in_parentheses(); w.say("older than"); w.duration() },
    |w| { w.say("device"); w.reference(Kind::Device); w.say("is online") },
    |w| { w.say("sun is"); w.choose(&["up", "down"]) },
    |w| { w.say("time in"); w.bound(); w.say(".."); w.bound() },
    |w| w.day_in(),
    |w| { w.say("group"); w.reference(Kind::Group); w.choose(&["any_on", "all_off"]) },
    |w| { w.say("hcl is"); w.choose(&["enabled", "overridden"]); w.say("for"); w.target() },
    |w| { w.say("lamp"); w.reference(Kind::Lamp); w.say("is"); w.choose(&["on", "off"]) },
    |w| { w.say("lamp"); w.reference(Kind::Lamp); w.say("."); w.choose(&["level", "cct"]); w.compare(); w.value() },
    |w| { w.say("lamp"); w.reference(Kind::Lamp); w.say("."); w.choose(&["level", "cct"]); w.compare(); w.value() },
    |w| { w.say("input"); w.arguments(false); w.say("is"); w.choose(&["occupied", "vacant"]) },
    |w| { w.say("input"); w.arguments(false); w.say(". light"); w.choose(&["above", "below"]); w.value() },
    |w| { w.say("var"); w.name_in_parentheses(); w.compare(); w.value() },
    |w| { w.say("var"); w.name_in_parentheses(); w.compare(); w.var_text() },
];

/// The readings; `event` is the last, and the shop profile has all others.
const READINGS: &[fn(&mut Walk)] = &[
    |w| { w.say("lamp"); w.reference(Kind::Lamp); w.say("."); w.choose(&["level", "cct", "is_on", "last_level"]) },
    |w| { w.say("group"); w.reference(Kind::Group); w.say("."); w.choose(&["any_on", "all_off", "member_count"]) },
    |w| {
        w.say("input");
        w.arguments(false);
        w.say(".");
        w.choose(&["occupied", "light", "position", "last_event_age"])
    },
    |w| { w.say("time ."); w.choose(&["now", "hour", "minute", "weekday"]) },
    |w| { w.say("sun ."); w.choose(&["rise", "set", "is_up"]) },
    |w| { w.say("var"); w.name_in_parentheses() },
    |w| { w.say("event ."); w.choose(&["value", "device", "instance", "option"]) },
];
pub const PROFILE_READINGS: &[fn(&mut Walk)] = READINGS.split_last().expect("there are readings").1;

impl<'a> Walk<'a> {
    pub fn new(rng: &'a mut Rng, sheet: &'a Sheet, slips: usize) -> Walk<'a> {
        let strays = if sheet.shop { profile::strays(rng) } else { 0 };
        Walk { rng, sheet, slips, strays, out: Vec::with_capacity(48), end: None }
    }

    /// A whole text.
    pub fn text(&mut self) {
        for _ in 0..self.count(1, 4) {
            self.say("when");
            self.trigger();
        }
        if self.slip() {
            self.say("when");
        }
        let conditions = self.count(0, 4);
        for at in 0..conditions {
            self.say(if at == 0 { "if" } else { "and" });
            self.condition();
        }
        if self.slip() {
            let junk = self.rng.pick(WORDS);
            self.say(junk);
        }
    }

    /// The tokens written, up to an early end.
    pub fn tokens(mut self) -> Vec<Token> {
        self.out.truncate(self.end.unwrap_or(self.out.len()));
        self.out
    }

    /// A text of one trigger and perhaps one condition, so that the faults of a walk that slips often meet in one form.
    pub fn short_text(&mut self) {
        self.say("when");
        if self.rng.once_in(2) {
            return self.trigger();
        }
        self.say("http trigger if");
        self.condition();
    }

    /// How many triggers or conditions: mostly the fewest, up to `last`, and one more in a walk that slips.
    fn count(&mut self, first: usize, last: usize) -> usize {
        match self.rng.below(16) {
            0..=7 => first,
            8..=10 => first + 1,
            11 | 12 => first + 2,
            13 => last - 1,
            14 => last,
            _ if self.slips > 0 => if self.rng.once_in(4) { 0 } else { last + 1 },
            _ => last,
        }
    }

    pub fn trigger(&mut self) {
        if self.slip() {
            let odd = self.rng.pick(&["mqtt", "mqtt \"t\" is", "when", "day", "foo", "at on", "input"]);
            return self.say(odd);
        }
        let form = self.rng.pick(TRIGGERS);
        form(self)
    }

    pub fn condition(&mut self) {
        if self.slip() {
            let odd = self.rng.pick(&["day", "day in", "mon", "scene", "foo", "every 5s", "lamp", "and"]);
            return self.say(odd);
        }
        let form = self.rng.pick(CONDITIONS);
        form(self)
    }

    pub(crate) fn slip(&mut self) -> bool {
        self.slips > 0 && self.rng.once_in(self.slips)
    }

    /// Fixed tokens, parted by spaces.
    pub(crate) fn say(&mut self, tokens: &'static str) {
        self.out.extend(tokens.split(' ').map(|token| Cow::Borrowed(token.as_bytes())));
    }

    pub(crate) fn choose(&mut self, choices: &[&'static str]) {
        let from = if self.slip() { WORDS } else { choices };
        let word = self.rng.pick(from);
        self.say(word);
    }

    pub(crate) fn decimal(&mut self, number: usize) {
        let digits = if self.rng.once_in(40) { format!("{number:012}") } else { number.to_string() };
        self.out.push(Cow::Owned(digits.into_bytes()));
    }

    /// A number from 0 to `last`, often at an end; one past it in a slip.
    pub(crate) fn number(&mut self, last: usize) {
        let number = match self.rng.below(8) {
            _ if self.slip() => self.rng.pick(&[last + 1, last + 1, last + 256, 65_536, 1_000_000_000]),
            0 => 0,
            1 => 1,
            2 => last,
            _ => self.rng.within(0, last),
        };
        self.decimal(number);
    }

    /// Q: a quoted name that is not looked up.
    fn name_in_parentheses(&mut self) {
        self.say("(");
        let name = self.any_name();
        self.out.push(name);
        self.say(")");
    }

    fn any_name(&mut self) -> Token {
        if self.slip() {
            return if self.rng.once_in(2) { quoted(b"") } else { quoted(self.rng.pick(LONG_NAMES).as_bytes()) };
        }
        quoted(self.rng.pick(NAMES))
    }

    /// A name of the sheet, mostly of the kind asked for and on an adapter of the party's, and the adapter of its row.
    fn sheet_name(&mut self, kind: Kind) -> (Token, Option<u8>) {
        let kind = if self.slip() { self.rng.pick(&KINDS) } else { kind };
        let (sheet, anyones) = (self.sheet, self.rng.once_in(8));
        let rows: Vec<&Row> = sheet.rows.iter().filter(|row| row.kind == kind && (anyones || sheet.is_own(row.adapter))).collect();
        if rows.is_empty() || self.rng.once_in(24) {
            return (self.any_name(), None);
        }
        let row = self.rng.pick(&rows);
        let name = if self.rng.once_in(16) { self.beside_name(row.name) } else { quoted(row.name) };
        (name, Some(row.adapter))
    }

    /// A name or an id of a kind; the adapter that would suit it.
    pub(crate) fn name_or_id(&mut self, kind: Kind) -> Option<u8> {
        if let Some(row) = self.keeps_profile().then(|| self.single_row(kind)).flatten() {
            self.out.push(quoted(row.name));
            return Some(row.adapter);
        }
        let named = self.sheet.rows.iter().any(|row| row.kind == kind && self.sheet.is_own(row.adapter));
        if self.rng.below(8) < if named { 5 } else { 1 } {
            let (name, adapter) = self.sheet_name(kind);
            self.out.push(name);
            return adapter;
        }
        self.number(kind.last());
        None
    }

    /// An adapter: the one that suits, or any of the party's that is listed; now and then another's, or another number.
    pub(crate) fn adapter(&mut self, suiting: Option<u8>) {
        let odd = self.slip() || self.rng.once_in(24);
        let anothers = self.rng.once_in(12);
        let listed = self.listed(!anothers);
        let number = match suiting {
            _ if odd => self.rng.pick(&[0, 1, 3, 7, 255, 256, 512]),
            Some(adapter) if !anothers && !self.rng.once_in(5) => usize::from(adapter),
            _ if !listed.is_empty() => usize::from(self.rng.pick(&listed)),
            _ if self.rng.once_in(2) => usize::from(self.rng.pick(&self.sheet.adapters)),
            _ => self.rng.below(256),
        };
        self.decimal(number);
    }

    /// The adapters that the sheet lists: the party's own, or those of others.
    pub(crate) fn listed(&self, own: bool) -> Vec<u8> {
        self.sheet.listed.iter().copied().filter(|&adapter| self.sheet.is_own(adapter) == own).collect()
    }

    fn adapter_clause(&mut self, suiting: Option<u8>) {
        if self.rng.once_in(3) && (!self.listed(true).is_empty() || self.rng.once_in(8)) {
            self.say(", adapter =");
            self.adapter(suiting);
            if self.slip() {
                self.say(", adapter =");
                self.adapter(suiting);
            }
        }
    }

    /// R of the grammar.
    pub(crate) fn reference(&mut self, kind: Kind) {
        self.say("(");
        if !self.name_on_both_sides(kind) {
            let adapter = self.name_or_id(kind);
            self.adapter_clause(adapter);
        }
        self.say(")");
    }

    pub(crate) fn target(&mut self) {
        let sorts = if self.keeps_profile() { 4 } else { 5 };
        match self.rng.below(sorts) {
            0 | 1 => { self.say("lamp"); self.reference(Kind::Lamp) }
            2 | 3 => { self.say("group"); self.reference(Kind::Group) }
            _ => self.choose(&["broadcast"]),
        }
    }

    fn scene(&mut self) {
        self.say("scene (");
        self.number(15);
        self.adapter_clause(None);
        self.say(") recalled");
    }

    fn input_device(&mut self) {
        self.say("input device (");
        if self.rng.once_in(2) {
            self.say("dev =");
        }
        let adapter = self.name_or_id(Kind::Input);
        self.adapter_clause(adapter);
        self.say(")");
        if self.rng.once_in(2) { self.say("power cycled") } else { self.say("manual config changed") }
    }

    fn event(&mut self) {
        if self.rng.once_in(6) {
            self.say("event ( data =");
            self.number(1023);
            return self.say(")");
        }
        self.choose(EVENTS);
    }

    fn period(&mut self) {
        if self.slip() {
            let short = self.rng.pick(SHORT_PERIODS);
            return self.say(short);
        }
        if self.rng.once_in(2) {
            return self.duration();
        }
        let period = self.rng.pick(PERIODS);
        self.say(period);
    }

    fn duration(&mut self) {
        let slip = self.slip();
        if self.rng.once_in(6) {
            let made = if slip { durations::any(self.rng) } else { durations::fitting(self.rng) };
            return self.out.push(made);
        }
        let duration = self.rng.pick(if slip { WRONG_DURATIONS } else { DURATIONS });
        self.say(duration);
    }

    pub(crate) fn time(&mut self) {
        let from = if self.slip() { WRONG_TIMES } else { TIMES };
        let time = self.rng.pick(from);
        self.say(time);
    }

    pub(crate) fn solar(&mut self) {
        self.choose(&["sunrise", "sunset"]);
        match self.rng.below(4) {
            0 => { self.say("+"); self.duration() }
            1 => { self.say("-"); self.duration() }
            _ => {}
        }
    }

    fn bound(&mut self) {
        if self.rng.once_in(2) { self.time() } else { self.solar() }
    }

    fn compare(&mut self) {
        self.choose(&["==", "!=", ">=", "<=", ">", "<"]);
    }

    fn value(&mut self) {
        if self.rng.once_in(2) {
            self.choose_sign(4);
            return self.literal();
        }
        let readings = if self.keeps_profile() { PROFILE_READINGS } else { READINGS };
        let reading = self.rng.pick(readings);
        reading(self);
        self.perhaps_added();
    }

    /// Now and then a sign and a number behind a reading.
    pub(crate) fn perhaps_added(&mut self) {
        if self.rng.once_in(3) {
            self.choose_sign(1);
            self.literal();
        }
    }

    /// `+` or `-`, once in `n` times.
    fn choose_sign(&mut self, n: usize) {
        if self.rng.once_in(n) {
            self.choose(&["+", "-"]);
        }
    }

    fn literal(&mut self) {
        let number = match self.rng.below(6) {
            0 => self.rng.pick(&[0, 1, 999_999_999, 1_000_000_000]),
            _ if self.slip() => 1_000_000_001,
            _ => self.rng.below(3_000),
        };
        self.decimal(number);
    }

    fn var_text(&mut self) {
        let from = if self.slip() { LONG_VAR_TEXTS } else { VAR_TEXTS };
        let text = quoted(self.rng.pick(from).as_bytes());
        self.out.push(text);
    }
}
