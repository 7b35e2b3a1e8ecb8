//! Tokens and a rule in the lines of the replay format.

use tergyosul::*;

/// NAME and TEXT: `x` and the bytes in lower-case hex.
fn hex(name: Name, text: &[u8]) -> String {
    let bytes = name.of(text).expect("a name lies in its text");
    bytes.iter().fold("x".to_string(), |field, byte| format!("{field}{byte:02x}"))
}

/// The line of a token.
pub fn token(t: &Token) -> String {
    let Token { kind, number, bytes: Name { start, length }, .. } = t;
    format!("token {kind} {number} {start} {length} {} {}\n", t.line(), t.column())
}

fn reference(r: Ref) -> String {
    format!("{} {}", r.adapter, r.number)
}

fn input(i: InputRef) -> String {
    format!("{} {}", reference(i.device), i.instance)
}

fn selector(s: Selector) -> String {
    match s {
        Selector::Instance(device, instance) => format!("instance {} {instance}", reference(device)),
        Selector::Group(adapter, group, Some(of)) => format!("group {adapter} {group} {of}"),
        Selector::Group(adapter, group, None) => format!("group {adapter} {group} -"),
    }
}

fn event(e: Event) -> String {
    let word = match e {
        Event::Press => "press",
        Event::Release => "release",
        Event::ShortPress => "short_press",
        Event::DoublePress => "double_press",
        Event::LongPressStart => "long_press_start",
        Event::LongPressRepeat => "long_press_repeat",
        Event::LongPressStop => "long_press_stop",
        Event::ButtonFree => "button_free",
        Event::ButtonStuck => "button_stuck",
        Event::Movement => "movement",
        Event::NoMovement => "no_movement",
        Event::AnyEvent => "any_event",
        Event::Raw(data) => return format!("raw {data}"),
    };
    word.to_string()
}

fn target(t: LightTarget) -> String {
    match t {
        LightTarget::Lamp(r) => format!("lamp {}", reference(r)),
        LightTarget::Group(r) => format!("group {}", reference(r)),
        LightTarget::Broadcast(adapter) => format!("broadcast {adapter}"),
    }
}

fn solar(e: SolarEvent) -> &'static str {
    match e {
        SolarEvent::Sunrise => "sunrise",
        SolarEvent::Sunset => "sunset",
    }
}

fn bound(b: TimeBound) -> String {
    match b {
        TimeBound::Clock(minutes) => format!("clock {minutes}"),
        TimeBound::Solar(event, offset) => format!("solar {} {offset}", solar(event)),
    }
}

/// DAYS: the digits of the days in the set, from 1 for Monday.
fn days(d: Days) -> String {
    Day::ALL.into_iter().zip('1'..).filter(|(day, _)| d.contains(*day)).map(|(_, digit)| digit).collect()
}

/// ` on DAYS`, or nothing for all seven.
fn on(d: Days) -> String {
    if d == Days::EVERY_DAY {
        return String::new();
    }
    format!(" on {}", days(d))
}

fn comparison(c: Comparison) -> &'static str {
    match c {
        Comparison::Eq => "eq",
        Comparison::Ne => "ne",
        Comparison::Ge => "ge",
        Comparison::Le => "le",
        Comparison::Gt => "gt",
        Comparison::Lt => "lt",
    }
}

fn power(p: Power) -> &'static str {
    match p {
        Power::On => "on",
        Power::Off => "off",
    }
}

fn crossing(c: Crossing) -> &'static str {
    match c {
        Crossing::Above => "above",
        Crossing::Below => "below",
    }
}

fn occupancy(o: Occupancy) -> &'static str {
    match o {
        Occupancy::Occupied => "occupied",
        Occupancy::Vacant => "vacant",
    }
}

fn aggregate(a: Aggregate) -> &'static str {
    match a {
        Aggregate::AnyOn => "any_on",
        Aggregate::AllOff => "all_off",
    }
}

fn reading(r: Reading, text: &[u8]) -> String {
    let word = match r {
        Reading::LampLevel(of) => return format!("lamp_level {}", reference(of)),
        Reading::LampCct(of) => return format!("lamp_cct {}", reference(of)),
        Reading::LampIsOn(of) => return format!("lamp_is_on {}", reference(of)),
        Reading::LampLastLevel(of) => return format!("lamp_last_level {}", reference(of)),
        Reading::GroupAnyOn(of) => return format!("group_any_on {}", reference(of)),
        Reading::GroupAllOff(of) => return format!("group_all_off {}", reference(of)),
        Reading::GroupMemberCount(of) => return format!("group_member_count {}", reference(of)),
        Reading::InputOccupied(of) => return format!("input_occupied {}", input(of)),
        Reading::InputLight(of) => return format!("input_light {}", input(of)),
        Reading::InputPosition(of) => return format!("input_position {}", input(of)),
        Reading::InputLastEventAge(of) => return format!("input_last_event_age {}", input(of)),
        Reading::Var(name) => return format!("var {}", hex(name, text)),
        Reading::TimeNow => "time_now",
        Reading::TimeHour => "time_hour",
        Reading::TimeMinute => "time_minute",
        Reading::TimeWeekday => "time_weekday",
        Reading::SunRise => "sun_rise",
        Reading::SunSet => "sun_set",
        Reading::SunIsUp => "sun_is_up",
        Reading::EventValue => "event_value",
        Reading::EventDevice => "event_device",
        Reading::EventInstance => "event_instance",
        Reading::EventOption => "event_option",
    };
    word.to_string()
}

fn value(v: Value, text: &[u8]) -> String {
    match v {
        Value::Literal(number) => format!("literal {number}"),
        Value::Reads(of) => format!("reading {}", reading(of, text)),
        Value::Offset(of, delta) => format!("offset {} {delta}", reading(of, text)),
    }
}

fn operand(o: Operand, text: &[u8]) -> String {
    match o {
        Operand::Text(name) => format!("text {}", hex(name, text)),
        Operand::Number(of) => format!("value {}", value(of, text)),
    }
}

fn trigger(t: Trigger, text: &[u8]) -> String {
    match t {
        Trigger::InputEvent(of, e) => format!("input_event {} {}", selector(of), event(e)),
        Trigger::InputOccupancy(of, state) => format!("input_occupancy {} {}", input(of), occupancy(state)),
        Trigger::InputLightCross(of, way, n) => format!("input_light_cross {} {} {n}", input(of), crossing(way)),
        Trigger::InputPositionChange(of) => format!("input_position_change {}", input(of)),
        Trigger::InputDevicePowerCycled(of) => format!("input_device_power_cycled {}", reference(of)),
        Trigger::InputDeviceManualConfigChanged(of) => format!("input_device_manual_config_changed {}", reference(of)),
        Trigger::AtTime(minutes, d) => format!("at_time {minutes}{}", on(d)),
        Trigger::AtSolar(e, offset, d) => format!("at_solar {} {offset}{}", solar(e), on(d)),
        Trigger::Every(ms) => format!("every {ms}"),
        Trigger::LampTurns(of, to) => format!("lamp_turns {} {}", reference(of), power(to)),
        Trigger::LampLevelCross(of, way, n) => format!("lamp_level_cross {} {} {n}", reference(of), crossing(way)),
        Trigger::GroupBecomes(of, state) => format!("group_becomes {} {}", reference(of), aggregate(state)),
        Trigger::SceneRecalled(adapter, scene) => format!("scene_recalled {adapter} {scene}"),
        Trigger::DeviceOnline(of, Online::GoesOffline) => format!("device_online {} goes_offline", reference(of)),
        Trigger::DeviceOnline(of, Online::ComesOnline) => format!("device_online {} comes_online", reference(of)),
        Trigger::HclOverride(of, Override::Starts) => format!("hcl_override {} starts", target(of)),
        Trigger::HclOverride(of, Override::Clears) => format!("hcl_override {} clears", target(of)),
        Trigger::TimerFires(name) => format!("timer_fires {}", hex(name, text)),
        Trigger::ControllerStarts => "controller_starts".to_string(),
        Trigger::ControllerBecomesActive => "controller_becomes_active".to_string(),
        Trigger::RuleFails(name) => format!("rule_fails {}", hex(name, text)),
        Trigger::HttpTrigger => "http_trigger".to_string(),
        Trigger::MqttMessage(topic) => format!("mqtt {}", hex(topic, text)),
    }
}

fn condition(c: Condition, text: &[u8]) -> String {
    match c {
        Condition::TimeInRange(from, to) => format!("time_in_range {} {}", bound(from), bound(to)),
        Condition::SunIs(Sun::Up) => "sun_is up".to_string(),
        Condition::SunIs(Sun::Down) => "sun_is down".to_string(),
        Condition::LampIs(of, state) => format!("lamp_is {} {}", reference(of), power(state)),
        Condition::LampLevel(of, c, v) => format!("lamp_level {} {} {}", reference(of), comparison(c), value(v, text)),
        Condition::LampCct(of, c, v) => format!("lamp_cct {} {} {}", reference(of), comparison(c), value(v, text)),
        Condition::GroupState(of, state) => format!("group_state {} {}", reference(of), aggregate(state)),
        Condition::InputOccupancy(of, state) => format!("input_occupancy {} {}", input(of), occupancy(state)),
        Condition::InputLight(of, way, v) => format!("input_light {} {} {}", input(of), crossing(way), value(v, text)),
        Condition::HclState(of, Hcl::Enabled) => format!("hcl_state {} enabled", target(of)),
        Condition::HclState(of, Hcl::Overridden) => format!("hcl_state {} overridden", target(of)),
        Condition::DeviceOnline(of) => format!("device_online {}", reference(of)),
        Condition::RuleEnabled(name) => format!("rule_enabled {}", hex(name, text)),
        Condition::LastFiredOlderThan(name, ms) => format!("last_fired_older_than {} {ms}", hex(name, text)),
        Condition::TimerRunning(name) => format!("timer_running {}", hex(name, text)),
        Condition::ControllerActive => "controller_active".to_string(),
        Condition::VarCompare(name, c, of) => {
            format!("var_compare {} {} {}", hex(name, text), comparison(c), operand(of, text))
        }
        Condition::DayIn(d) => format!("day_in {}", days(d)),
    }
}

/// `accepted` with the two counts, then a line for each trigger and each condition.
pub fn rule(rule: &Rule, text: &[u8]) -> String {
    let mut out = format!("accepted {} {}\n", rule.triggers().len(), rule.conditions().len());
    for t in rule.triggers() {
        out += &format!("T {}\n", trigger(*t, text));
    }
    for c in rule.conditions() {
        out += &format!("C {}\n", condition(*c, text));
    }
    out
}

/// The same of two texts joined, with the number of the text of each entry.
pub fn joined(joined: &Joined, first: &[u8], second: &[u8]) -> String {
    let (triggers, conditions) = (joined.triggers(), joined.conditions());
    let mut out = format!("accepted {} {}\n", triggers.count(), conditions.count());
    for (t, text) in joined.triggers() {
        out += &format!("T {} {}\n", text as u32 + 1, trigger(t, text.of(first, second)));
    }
    for (c, text) in joined.conditions() {
        out += &format!("C {} {}\n", text as u32 + 1, condition(c, text.of(first, second)));
    }
    out
}
