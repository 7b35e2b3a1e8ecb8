//! Document 02 §7: the section that two lists are, written out.

use crate::days::Days;
use crate::flat;
use crate::model::*;
use crate::reader::Read;
use crate::refusal::{Place, Refusal};
use crate::sheet::View;
use crate::{print, seen, well_formed_sheet};
use cases::{Row, Writing, ROWS};

const LEAST_BYTES: usize = 4_096;
/// "Durations up to 1,000,000,000 ms are written in ms, longer ones in seconds with three places."
const MOST_MILLISECONDS: u32 = 1_000_000_000;

/// The answer to a `write` line, in the replay format. "Bytes past the text, and all on refusal, stay."
pub fn write(writing: &Writing) -> String {
    print::written(writing.id, writing.size, &section(writing))
}

/// The text. "One that reads no rule text gives 3, then 53, first" (§6); then 54, 55 and 56, in this order.
fn section(writing: &Writing) -> Read<Vec<u8>> {
    let sheet = well_formed_sheet(&writing.sheet)?;
    let view = seen(&sheet, writing.party, writing.primary)?;
    room_for(LEAST_BYTES, writing.size)?;
    let lists = lists(writing)?;
    text(&lists, &view)
}

/// 54: "a buffer under" so many bytes.
pub fn room_for(least: usize, size: usize) -> Read<()> {
    if size < least { Err(Refusal::new(54, Place::NONE)) } else { Ok(()) }
}

/// "For 55 and 56 the line is the first such entry's ordinal, triggers first (0 for a bad count, which comes first), the column 0."
pub fn at_entry(number: u32, ordinal: usize) -> Refusal {
    Refusal::new(number, Place { line: ordinal as u32, column: 0 })
}

/// Both lists: 55 for "a count of triggers or conditions out of bounds, a name outside its text, or an entry that by itself no text could
/// give under any sheet".
fn lists(writing: &Writing) -> Read<Lists<'_>> {
    let [triggers, conditions] = writing.lists.counts;
    let bounded = |count: u32, least: usize| usize::try_from(count).ok().filter(|count| (least..=ROWS).contains(count));
    let (Some(triggers), Some(conditions)) = (bounded(triggers, 1), bounded(conditions, 0)) else { return Err(at_entry(55, 0)) };
    let texts = [writing.texts[0].as_slice(), &writing.texts[1]];
    let trigger = |(ordinal, row): (usize, &Row)| flat::trigger(row, texts).ok_or(at_entry(55, ordinal));
    let condition = |(ordinal, row): (usize, &Row)| flat::condition(row, texts).ok_or(at_entry(55, ordinal));
    Ok(Lists {
        triggers: (1..).zip(&writing.lists.triggers[..triggers]).map(trigger).collect::<Read<_>>()?,
        conditions: (triggers + 1..).zip(&writing.lists.conditions[..conditions]).map(condition).collect::<Read<_>>()?,
    })
}

/// The text of good lists, or 56 for the first entry that cannot be written for this call.
fn text(lists: &Lists, view: &View) -> Read<Vec<u8>> {
    let mut pen = Pen { view, tokens: Vec::new(), is_out_of_reach: false };
    for (ordinal, trigger) in (1..).zip(&lists.triggers) {
        pen.say("when");
        pen.trigger(trigger);
        pen.in_reach(ordinal)?;
    }
    for (nth, condition) in lists.conditions.iter().enumerate() {
        pen.say(if nth == 0 { "if" } else { "and" });
        pen.condition(condition);
        pen.in_reach(lists.triggers.len() + nth + 1)?;
    }
    // "One space between tokens."
    Ok(pen.tokens.join(&b' '))
}

/// The tokens that are written for a call, and whether something was met that the call cannot have written.
struct Pen<'v> {
    view: &'v View<'v>,
    tokens: Vec<Vec<u8>>,
    is_out_of_reach: bool,
}

impl Pen<'_> {
    fn in_reach(&self, ordinal: usize) -> Read<()> {
        if self.is_out_of_reach { Err(at_entry(56, ordinal)) } else { Ok(()) }
    }

    /// Tokens, parted by spaces.
    fn say(&mut self, tokens: &str) {
        self.tokens.extend(tokens.split(' ').map(|token| token.as_bytes().to_vec()));
    }

    /// "Other numbers have no leading zero."
    fn number(&mut self, number: impl std::fmt::Display) {
        self.say(&number.to_string());
    }

    fn string(&mut self, bytes: &[u8]) {
        self.tokens.push([b"\"", bytes, b"\""].concat());
    }

    /// Q.
    fn quoted(&mut self, name: &[u8]) {
        self.say("(");
        self.string(name);
        self.say(")");
    }

    /// "`adapter=` only where the adapter is not the primary"; 56 for "an adapter that needs writing but is not listed".
    fn adapter(&mut self, adapter: u32) {
        if adapter == self.view.primary {
            return;
        }
        self.is_out_of_reach |= !self.view.listed.contains(&adapter);
        self.say(", adapter =");
        self.number(adapter);
    }

    /// "References as ids". The dev of `input device(` has its key before it.
    fn reference(&mut self, open: &str, r: &Ref) {
        self.say(open);
        self.number(r.number);
        self.adapter(r.adapter);
        self.say(")");
    }

    /// "Arguments of `input(` and the dev of `input device(` are named, in the order dev, inst, group, type, adapter."
    fn instance(&mut self, i: &Instance) {
        self.say("( dev =");
        self.number(i.device.number);
        self.say(", inst =");
        self.number(i.instance);
        self.adapter(i.device.adapter);
        self.say(")");
    }

    /// "Types are numbers."
    fn selector(&mut self, selector: &Selector) {
        match selector {
            Selector::Instance(i) => self.instance(i),
            Selector::Group { adapter, group, instance_type } => {
                self.say("( group =");
                self.number(group);
                if let Some(instance_type) = instance_type {
                    self.say(", type =");
                    self.number(instance_type);
                }
                self.adapter(*adapter);
                self.say(")");
            }
        }
    }

    fn event(&mut self, event: &Event) {
        match event {
            Event::Named(name) => self.say(name),
            Event::Raw(data) => {
                self.say("event ( data =");
                self.number(data);
                self.say(")");
            }
        }
    }

    /// 56 for "a broadcast not on the primary".
    fn target(&mut self, target: &Target) {
        match target {
            Target::Lamp(r) => self.reference("lamp (", r),
            Target::Group(r) => self.reference("group (", r),
            Target::Broadcast(adapter) => {
                self.is_out_of_reach |= *adapter != self.view.primary;
                self.say("broadcast");
            }
        }
    }

    fn duration(&mut self, milliseconds: u32) {
        let (seconds, rest) = (milliseconds / 1_000, milliseconds % 1_000);
        self.say(&if milliseconds <= MOST_MILLISECONDS { format!("{milliseconds}ms") } else { format!("{seconds}.{rest:03}s") });
    }

    /// "Times have two digits on each side", and "a solar offset of 0 is left out".
    fn bound(&mut self, bound: &Bound) {
        match bound {
            Bound::Clock(minutes) => self.say(&format!("{:02}:{:02}", minutes / 60, minutes % 60)),
            Bound::Solar(Solar { event, offset }) => {
                self.say(event);
                if *offset != 0 {
                    self.say(if *offset < 0 { "-" } else { "+" });
                    self.duration(offset.unsigned_abs());
                }
            }
        }
    }

    /// "Days are written singly from mon."
    fn days(&mut self, days: &Days) {
        self.say(&days.names().collect::<Vec<_>>().join(" , "));
    }

    /// "And `on` only if fewer than seven."
    fn on(&mut self, days: &Days) {
        if *days != Days::ALL {
            self.say("on");
            self.days(days);
        }
    }

    fn comparison(&mut self, comparison: Comparison) {
        self.say(match comparison {
            "eq" => "==",
            "ne" => "!=",
            "ge" => ">=",
            "le" => "<=",
            "gt" => ">",
            _ => "<",
        });
    }

    fn reading(&mut self, reading: &Reading) {
        match reading {
            Reading::Lamp(r, _) => self.reference("lamp (", r),
            Reading::Group(r, _) => self.reference("group (", r),
            Reading::Input(i, _) => {
                self.say("input");
                self.instance(i);
            }
            Reading::Plain(first, _) => self.say(first),
            Reading::Var(name) => {
                self.say("var");
                self.quoted(name);
            }
        }
        match reading {
            Reading::Lamp(_, property) | Reading::Group(_, property) | Reading::Input(_, property) | Reading::Plain(_, property) => {
                self.say(".");
                self.say(property);
            }
            Reading::Var(_) => {}
        }
    }

    /// "A literal has `-` if negative, an offset `+` or `-` (0 takes `+`)."
    fn value(&mut self, value: &Value) {
        match value {
            Value::Literal(number) => {
                if *number < 0 {
                    self.say("-");
                }
                self.number(number.unsigned_abs());
            }
            Value::Reading(reading) => self.reading(reading),
            Value::Offset(reading, number) => {
                self.reading(reading);
                self.say(if *number < 0 { "-" } else { "+" });
                self.number(number.unsigned_abs());
            }
        }
    }

    fn trigger(&mut self, trigger: &Trigger) {
        match trigger {
            Trigger::InputEvent(selector, event) => {
                self.say("input");
                self.selector(selector);
                self.say("is");
                self.event(event);
            }
            Trigger::InputOccupancy(i, state) => {
                self.say("input");
                self.instance(i);
                self.say("becomes");
                self.say(state);
            }
            Trigger::InputLightCross(i, side, threshold) => {
                self.say("input");
                self.instance(i);
                self.say(&format!(". light crosses {side} {threshold}"));
            }
            Trigger::InputPositionChange(i) => {
                self.say("input");
                self.instance(i);
                self.say(". position changes");
            }
            Trigger::InputDevicePowerCycled(r) => {
                self.reference("input device ( dev =", r);
                self.say("power cycled");
            }
            Trigger::InputDeviceManualConfigChanged(r) => {
                self.reference("input device ( dev =", r);
                self.say("manual config changed");
            }
            Trigger::At(bound, days) => {
                self.say("at");
                self.bound(bound);
                self.on(days);
            }
            Trigger::Every(period) => {
                self.say("every");
                self.duration(*period);
            }
            Trigger::LampTurns(r, state) => {
                self.reference("lamp (", r);
                self.say(&format!("turns {state}"));
            }
            Trigger::LampLevelCross(r, side, threshold) => {
                self.reference("lamp (", r);
                self.say(&format!(". level crosses {side} {threshold}"));
            }
            Trigger::GroupBecomes(r, state) => {
                self.reference("group (", r);
                self.say(&format!("becomes {state}"));
            }
            Trigger::SceneRecalled { adapter, scene } => {
                self.reference("scene (", &Ref { adapter: *adapter, number: *scene });
                self.say("recalled");
            }
            Trigger::DeviceGoesOffline(r) => {
                self.reference("device (", r);
                self.say("goes offline");
            }
            Trigger::DeviceComesOnline(r) => {
                self.reference("device (", r);
                self.say("comes online");
            }
            Trigger::HclOverride(target, change) => {
                self.say(&format!("hcl override {change} for"));
                self.target(target);
            }
            Trigger::TimerFires(name) => {
                self.say("timer");
                self.quoted(name);
                self.say("fires");
            }
            Trigger::ControllerStarts => self.say("controller starts"),
            Trigger::ControllerBecomesActive => self.say("controller becomes active"),
            Trigger::RuleFails(name) => {
                self.say("rule");
                self.quoted(name);
                self.say("fails");
            }
            Trigger::Http => self.say("http trigger"),
            Trigger::Mqtt(topic) => {
                self.say("mqtt");
                self.string(topic);
            }
        }
    }

    fn condition(&mut self, condition: &Condition) {
        match condition {
            Condition::TimeInRange(from, to) => {
                self.say("time in");
                self.bound(from);
                self.say("..");
                self.bound(to);
            }
            Condition::DayIn(days) => {
                self.say("day in");
                self.days(days);
            }
            Condition::SunIs(state) => self.say(&format!("sun is {state}")),
            Condition::LampIs(r, state) => {
                self.reference("lamp (", r);
                self.say(&format!("is {state}"));
            }
            Condition::LampCompare(r, property, comparison, value) => {
                self.reference("lamp (", r);
                self.say(&format!(". {property}"));
                self.comparison(comparison);
                self.value(value);
            }
            Condition::GroupState(r, state) => {
                self.reference("group (", r);
                self.say(state);
            }
            Condition::InputOccupancy(i, state) => {
                self.say("input");
                self.instance(i);
                self.say(&format!("is {state}"));
            }
            Condition::InputLight(i, side, value) => {
                self.say("input");
                self.instance(i);
                self.say(&format!(". light {side}"));
                self.value(value);
            }
            Condition::HclState(target, state) => {
                self.say(&format!("hcl is {state} for"));
                self.target(target);
            }
            Condition::DeviceOnline(r) => {
                self.reference("device (", r);
                self.say("is online");
            }
            Condition::RuleEnabled(name) => {
                self.say("rule");
                self.quoted(name);
                self.say("is enabled");
            }
            Condition::LastFiredOlderThan(name, age) => {
                self.say("last_fired");
                self.quoted(name);
                self.say("older than");
                self.duration(*age);
            }
            Condition::TimerRunning(name) => {
                self.say("timer");
                self.quoted(name);
                self.say("is running");
            }
            Condition::ControllerActive => self.say("controller is active"),
            Condition::VarText(name, comparison, text) => {
                self.say("var");
                self.quoted(name);
                self.comparison(comparison);
                self.string(text);
            }
            Condition::VarValue(name, comparison, value) => {
                self.say("var");
                self.quoted(name);
                self.comparison(comparison);
                self.value(value);
            }
        }
    }
}
