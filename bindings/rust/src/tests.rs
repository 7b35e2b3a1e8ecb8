//! Every kind, code and choice of the layout, by calls of the library: the words of the answer, and the value they become.

use crate::rule::*;
use crate::chain::{decoded, CHAIN_WORDS};
use crate::rows::rows_in;
use crate::written::{text_in, WRITE_WORDS};
use crate::{boundary, layout, lex, read, read_archive, tokens, with_room};
use crate::{Call, Day, Days, Party, Refusal, Token, VOCABULARY};
use crate::{ANSWER_WORDS, LEAST_BYTES, LEX_WORDS, MOST_PIECES, RECORD_WORDS, ROWS_LEAST_BYTES, ROWS_MOST_BYTES, TOKEN_WORDS};
use std::format;
use std::string::{String, ToString};
use std::vec::Vec;

/// The manual's sheet.
const SHEET: &[u8] = b"primary,0\nadapter,0\nadapter,1\nlamp,0,2,Bakery\nlamp,0,3,Bakery\nlamp,0,4,Aisle\nlamp,1,4,Aisle\n\
lamp,1,7,Till\ngroup,0,1,Sales floor\ndevice,0,9,Gateway\ninput,0,5,Door\n";
/// Whose call each of them is, without topics of earlier rules; `tests/parties.rs` and `tests/topics.rs` have others.
const ZERO: Call = Party { number: 0, primary: 0 }.with_topics(b"");
const HEADER: &str = include_str!("../../../include/tergyosul.h");

const TILL: Ref = Ref { adapter: 1, number: 7 };
const FLOOR: Ref = Ref { adapter: 0, number: 1 };
const GATEWAY: Ref = Ref { adapter: 0, number: 9 };
const DOOR: Ref = Ref { adapter: 0, number: 5 };

fn door(instance: u32) -> InputRef {
    InputRef { device: DOOR, instance }
}

fn name(start: u32, length: u32) -> Name {
    Name { start, length }
}

fn days(of: &[Day]) -> Days {
    of.iter().copied().collect()
}

fn answer(text: &str) -> [u32; ANSWER_WORDS] {
    let mut answer = [u32::MAX; ANSWER_WORDS];
    let number = boundary::read(text.as_bytes(), SHEET, ZERO, &mut [0; TOKEN_WORDS], &mut answer);
    assert_eq!((number, answer[0]), (0, 0), "{text}");
    answer
}

/// A row of the answer must have these words at its front and zeros behind them.
fn assert_row(answer: &[u32], row: usize, words: &[u32], text: &str) {
    let (front, rest) = answer[12 * row..12 * (row + 1)].split_at(words.len());
    assert_eq!(front, words, "{text}");
    assert!(rest.iter().all(|&word| word == 0), "{text}");
}

/// What is written of a rule is read as one that is written so again.
fn assert_written(rule: &Rule, text: &str) {
    let written = rule.written(text.as_bytes(), SHEET, ZERO.party).expect(text);
    let again = read(written.as_bytes(), SHEET, ZERO, &mut [0; TOKEN_WORDS]).expect(&written);
    assert_eq!(again.written(written.as_bytes(), SHEET, ZERO.party), Ok(written), "{text}");
}

/// The constants of an enum in the header, with their values.
fn constants(of: &str) -> Vec<(String, u32)> {
    let (_, body) = HEADER.split_once(&format!("enum {of} {{")).expect("the header has the enum");
    let (body, _) = body.split_once("};").expect("the enum ends");
    let constant = |line: &str| {
        let (name, value) = line.trim().split_once(" = ")?;
        let digits = value.split(|c: char| !c.is_ascii_digit()).next()?;
        Some((name.strip_prefix("TERGYOSUL_")?.to_string(), digits.parse().ok()?))
    };
    body.lines().filter_map(constant).collect()
}

/// The forms that were run must be just the header's, in its order.
fn assert_covers(of: &str, run: &[(&str, u32)]) {
    let mut run: Vec<(String, u32)> = run.iter().map(|(name, code)| (name.to_string(), *code)).collect();
    run.dedup();
    assert_eq!(run, constants(of));
}

fn trigger(text: &str, words: &[u32]) -> Trigger {
    let text = format!("when {text}");
    let answer = answer(&text);
    assert_row(&answer, 0, &[0, 0, 0, 0, 1, 0], &text);
    assert_row(&answer, 1, words, &text);
    (2..9).for_each(|row| assert_row(&answer, row, &[], &text));
    let rule = layout::rule(&answer).expect("it is accepted");
    assert_written(&rule, &text);
    assert_eq!(rule.conditions(), []);
    let [trigger] = rule.triggers() else { panic!("{text} has one trigger") };
    *trigger
}

/// The offset of what stands behind `when http trigger if `.
const IF: u32 = 21;

fn condition(text: &str, words: &[u32]) -> Condition {
    let text = format!("when http trigger if {text}");
    let answer = answer(&text);
    assert_row(&answer, 0, &[0, 0, 0, 0, 1, 1], &text);
    assert_row(&answer, 1, &[20], &text);
    assert_row(&answer, 5, words, &text);
    [2, 3, 4, 6, 7, 8].iter().for_each(|&row| assert_row(&answer, row, &[], &text));
    let rule = layout::rule(&answer).expect("it is accepted");
    assert_written(&rule, &text);
    let [condition] = rule.conditions() else { panic!("{text} has one condition") };
    *condition
}

#[test]
fn every_trigger() {
    use Trigger::*;
    let minus = |ms: i64| (ms + (1 << 32)) as u32;
    let weekend = days(&[Day::Sat, Day::Sun]);
    let every_day = Days::EVERY_DAY;
    let forms: [(&str, &str, &[u32], Trigger); 34] = [
        (
            "INPUT_EVENT",
            "input(\"Door\", 3) is press",
            &[1, 1, 0, 5, 3, 1, 0],
            InputEvent(Selector::Instance(DOOR, 3), Event::Press),
        ),
        (
            "INPUT_EVENT",
            "input(group=2, adapter=1) is any_event",
            &[1, 2, 1, 2, u32::MAX, 12, 0],
            InputEvent(Selector::Group(1, 2, None), Event::AnyEvent),
        ),
        (
            "INPUT_EVENT",
            "input(group=2, type=occupancy) is movement",
            &[1, 2, 0, 2, 3, 10, 0],
            InputEvent(Selector::Group(0, 2, Some(3)), Event::Movement),
        ),
        (
            "INPUT_OCCUPANCY",
            "input(\"Door\", 1) becomes occupied",
            &[2, 0, 5, 1, 1],
            InputOccupancy(door(1), Occupancy::Occupied),
        ),
        (
            "INPUT_OCCUPANCY",
            "input(\"Door\", 1) becomes vacant",
            &[2, 0, 5, 1, 2],
            InputOccupancy(door(1), Occupancy::Vacant),
        ),
        (
            "INPUT_LIGHT_CROSS",
            "input(\"Door\", 2).light crosses above 1023",
            &[3, 0, 5, 2, 1, 1023],
            InputLightCross(door(2), Crossing::Above, 1023),
        ),
        (
            "INPUT_LIGHT_CROSS",
            "input(\"Door\", 2).light crosses below 300",
            &[3, 0, 5, 2, 2, 300],
            InputLightCross(door(2), Crossing::Below, 300),
        ),
        ("INPUT_POSITION_CHANGE", "input(\"Door\", 31).position changes", &[4, 0, 5, 31], InputPositionChange(door(31))),
        ("INPUT_DEVICE_POWER_CYCLED", "input device(\"Door\") power cycled", &[5, 0, 5], InputDevicePowerCycled(DOOR)),
        (
            "INPUT_DEVICE_MANUAL_CONFIG_CHANGED",
            "input device(dev=5) manual config changed",
            &[6, 0, 5],
            InputDeviceManualConfigChanged(DOOR),
        ),
        ("AT_TIME", "at 21:30", &[7, 1290, 127], AtTime(1290, every_day)),
        ("AT_TIME", "at 0:00 on sun", &[7, 0, 64], AtTime(0, days(&[Day::Sun]))),
        ("AT_SOLAR", "at sunrise + 90s", &[8, 1, 90_000, 127], AtSolar(SolarEvent::Sunrise, 90_000, every_day)),
        ("AT_SOLAR", "at sunrise on mon", &[8, 1, 0, 1], AtSolar(SolarEvent::Sunrise, 0, days(&[Day::Mon]))),
        (
            "AT_SOLAR",
            "at sunset - 30m on sat, sun",
            &[8, 2, minus(-1_800_000), 96],
            AtSolar(SolarEvent::Sunset, -1_800_000, weekend),
        ),
        ("AT_SOLAR", "at sunset - 2147483.648s", &[8, 2, 1 << 31, 127], AtSolar(SolarEvent::Sunset, i32::MIN, every_day)),
        ("EVERY", "every 4294967.295s", &[9, u32::MAX], Every(u32::MAX)),
        ("LAMP_TURNS", "lamp(\"Till\") turns on", &[10, 1, 7, 1], LampTurns(TILL, Power::On)),
        ("LAMP_TURNS", "lamp(\"Till\") turns off", &[10, 1, 7, 2], LampTurns(TILL, Power::Off)),
        (
            "LAMP_LEVEL_CROSS",
            "lamp(\"Till\").level crosses above 254",
            &[11, 1, 7, 1, 254],
            LampLevelCross(TILL, Crossing::Above, 254),
        ),
        (
            "LAMP_LEVEL_CROSS",
            "lamp(\"Till\").level crosses below 20",
            &[11, 1, 7, 2, 20],
            LampLevelCross(TILL, Crossing::Below, 20),
        ),
        ("GROUP_BECOMES", "group(\"Sales floor\") becomes any_on", &[12, 0, 1, 1], GroupBecomes(FLOOR, Aggregate::AnyOn)),
        ("GROUP_BECOMES", "group(1) becomes all_off", &[12, 0, 1, 2], GroupBecomes(FLOOR, Aggregate::AllOff)),
        ("SCENE_RECALLED", "scene(3, adapter=1) recalled", &[13, 1, 3], SceneRecalled(1, 3)),
        (
            "DEVICE_ONLINE",
            "device(\"Gateway\") goes offline",
            &[14, 0, 9, 1],
            DeviceOnline(GATEWAY, Online::GoesOffline),
        ),
        ("DEVICE_ONLINE", "device(9) comes online", &[14, 0, 9, 2], DeviceOnline(GATEWAY, Online::ComesOnline)),
        (
            "HCL_OVERRIDE",
            "hcl override starts for lamp(\"Till\")",
            &[15, 1, 1, 7, 1],
            HclOverride(LightTarget::Lamp(TILL), Override::Starts),
        ),
        (
            "HCL_OVERRIDE",
            "hcl override clears for group(1)",
            &[15, 2, 0, 1, 2],
            HclOverride(LightTarget::Group(FLOOR), Override::Clears),
        ),
        ("TIMER_FIRES", "timer(\"Close\") fires", &[16, 12, 5], TimerFires(name(12, 5))),
        ("CONTROLLER_STARTS", "controller starts", &[17], ControllerStarts),
        ("CONTROLLER_BECOMES_ACTIVE", "controller becomes active", &[18], ControllerBecomesActive),
        ("RULE_FAILS", "rule(\"Night\") fails", &[19, 11, 5], RuleFails(name(11, 5))),
        ("HTTP_TRIGGER", "http trigger", &[20], HttpTrigger),
        ("MQTT_MESSAGE", "mqtt \"till/close\"", &[21, 11, 10], MqttMessage(name(11, 10))),
    ];
    for (_, text, words, expected) in &forms {
        assert_eq!(trigger(text, words), *expected, "{text}");
    }
    assert_covers("tergyosul_trigger", &forms.map(|(constant, _, words, _)| (constant, words[0])));
}

#[test]
fn every_event() {
    use Event::*;
    let forms = [
        ("EVENT_PRESS", "press", Press),
        ("EVENT_RELEASE", "release", Release),
        ("EVENT_SHORT_PRESS", "short_press", ShortPress),
        ("EVENT_DOUBLE_PRESS", "double_press", DoublePress),
        ("EVENT_LONG_PRESS_START", "long_press_start", LongPressStart),
        ("EVENT_LONG_PRESS_REPEAT", "long_press_repeat", LongPressRepeat),
        ("EVENT_LONG_PRESS_STOP", "long_press_stop", LongPressStop),
        ("EVENT_BUTTON_FREE", "button_free", ButtonFree),
        ("EVENT_BUTTON_STUCK", "button_stuck", ButtonStuck),
        ("EVENT_MOVEMENT", "movement", Movement),
        ("EVENT_NO_MOVEMENT", "no_movement", NoMovement),
        ("EVENT_ANY", "any_event", AnyEvent),
        ("EVENT_RAW", "event(data=512)", Raw(512)),
    ];
    let codes: Vec<(&str, u32)> = forms.iter().map(|form| form.0).zip(1..).collect();
    for ((_, word, event), (_, code)) in forms.iter().zip(&codes) {
        let data = if *event == Raw(512) { 512 } else { 0 };
        let read = trigger(&format!("input(5, 0) is {word}"), &[1, 1, 0, 5, 0, *code, data]);
        assert_eq!(read, Trigger::InputEvent(Selector::Instance(DOOR, 0), *event));
    }
    assert_covers("tergyosul_event", &codes);
}

#[test]
fn broadcast_is_the_primary_adapter() {
    let read = trigger("hcl override starts for broadcast", &[15, 3, 0, 0, 1]);
    assert_eq!(read, Trigger::HclOverride(LightTarget::Broadcast(0), Override::Starts));
    let read = condition("hcl is enabled for broadcast", &[9, 3, 0, 0, 1]);
    assert_eq!(read, Condition::HclState(LightTarget::Broadcast(0), Hcl::Enabled));
}

#[test]
fn every_condition() {
    use Condition::*;
    let clock = TimeBound::Clock;
    let later = TimeBound::Solar(SolarEvent::Sunrise, 1_800_000);
    let earlier = TimeBound::Solar(SolarEvent::Sunset, -1);
    let forms: [(&str, &str, &[u32], Condition); 26] = [
        (
            "IF_TIME_IN_RANGE",
            "time in 21:00..sunrise + 30m",
            &[1, 1, 1260, 0, 2, 1, 1_800_000],
            TimeInRange(clock(1260), later),
        ),
        ("IF_TIME_IN_RANGE", "time in sunset - 1ms..0:00", &[1, 2, 2, u32::MAX, 1, 0, 0], TimeInRange(earlier, clock(0))),
        ("IF_SUN_IS", "sun is up", &[2, 1], SunIs(Sun::Up)),
        ("IF_SUN_IS", "sun is down", &[2, 2], SunIs(Sun::Down)),
        ("IF_LAMP_IS", "lamp(\"Till\") is on", &[3, 1, 7, 1], LampIs(TILL, Power::On)),
        ("IF_LAMP_IS", "lamp(\"Till\") is off", &[3, 1, 7, 2], LampIs(TILL, Power::Off)),
        (
            "IF_LAMP_LEVEL",
            "lamp(\"Till\").level >= 100",
            &[4, 1, 7, 3, 1, 0, 0, 0, 0, 100, 0],
            LampLevel(TILL, Comparison::Ge, Value::Literal(100)),
        ),
        (
            "IF_LAMP_CCT",
            "lamp(\"Till\").cct == lamp(\"Aisle\", adapter=0).cct - 200",
            &[5, 1, 7, 1, 3, 2, 0, 4, 0, u32::MAX - 199, u32::MAX],
            LampCct(TILL, Comparison::Eq, Value::Offset(Reading::LampCct(Ref { adapter: 0, number: 4 }), -200)),
        ),
        ("IF_GROUP_STATE", "group(\"Sales floor\") any_on", &[6, 0, 1, 1], GroupState(FLOOR, Aggregate::AnyOn)),
        ("IF_GROUP_STATE", "group(1) all_off", &[6, 0, 1, 2], GroupState(FLOOR, Aggregate::AllOff)),
        (
            "IF_INPUT_OCCUPANCY",
            "input(\"Door\", 1) is occupied",
            &[7, 0, 5, 1, 1],
            InputOccupancy(door(1), Occupancy::Occupied),
        ),
        (
            "IF_INPUT_OCCUPANCY",
            "input(\"Door\", 1) is vacant",
            &[7, 0, 5, 1, 2],
            InputOccupancy(door(1), Occupancy::Vacant),
        ),
        (
            "IF_INPUT_LIGHT",
            "input(\"Door\", 2).light above -1000000000",
            &[8, 0, 5, 2, 1, 1, 0, 0, 0, 0, u32::MAX - 999_999_999, u32::MAX],
            InputLight(door(2), Crossing::Above, Value::Literal(-1_000_000_000)),
        ),
        (
            "IF_INPUT_LIGHT",
            "input(5, 2).light below input(5, 3).light + 1000000000",
            &[8, 0, 5, 2, 2, 3, 9, 0, 5, 3, 1_000_000_000, 0],
            InputLight(door(2), Crossing::Below, Value::Offset(Reading::InputLight(door(3)), 1_000_000_000)),
        ),
        (
            "IF_HCL_STATE",
            "hcl is enabled for lamp(\"Till\")",
            &[9, 1, 1, 7, 1],
            HclState(LightTarget::Lamp(TILL), Hcl::Enabled),
        ),
        (
            "IF_HCL_STATE",
            "hcl is overridden for group(1)",
            &[9, 2, 0, 1, 2],
            HclState(LightTarget::Group(FLOOR), Hcl::Overridden),
        ),
        ("IF_DEVICE_ONLINE", "device(\"Gateway\") is online", &[10, 0, 9], DeviceOnline(GATEWAY)),
        ("IF_RULE_ENABLED", "rule(\"Night\") is enabled", &[11, IF + 6, 5], RuleEnabled(name(IF + 6, 5))),
        (
            "IF_LAST_FIRED_OLDER_THAN",
            "last_fired(\"Night\") older than 10m",
            &[12, IF + 12, 5, 600_000],
            LastFiredOlderThan(name(IF + 12, 5), 600_000),
        ),
        ("IF_TIMER_RUNNING", "timer(\"Close\") is running", &[13, IF + 7, 5], TimerRunning(name(IF + 7, 5))),
        ("IF_CONTROLLER_ACTIVE", "controller is active", &[14], ControllerActive),
        (
            "IF_VAR_COMPARE",
            "var(\"mode\") == \"night\"",
            &[15, IF + 5, 4, 1, 4, IF + 16, 5],
            VarCompare(name(IF + 5, 4), Comparison::Eq, Operand::Text(name(IF + 16, 5))),
        ),
        (
            "IF_VAR_COMPARE",
            "var(\"mode\") != \"\"",
            &[15, IF + 5, 4, 2, 4, IF + 16, 0],
            VarCompare(name(IF + 5, 4), Comparison::Ne, Operand::Text(name(IF + 16, 0))),
        ),
        (
            "IF_VAR_COMPARE",
            "var(\"count\") < -5",
            &[15, IF + 5, 5, 6, 1, 0, 0, 0, 0, u32::MAX - 4, u32::MAX],
            VarCompare(name(IF + 5, 5), Comparison::Lt, Operand::Number(Value::Literal(-5))),
        ),
        ("IF_DAY_IN", "day in fri..mon", &[16, 113], DayIn(days(&[Day::Mon, Day::Fri, Day::Sat, Day::Sun]))),
        ("IF_DAY_IN", "day in mon..sun", &[16, 127], DayIn(Days::EVERY_DAY)),
    ];
    for (_, text, words, expected) in &forms {
        assert_eq!(condition(text, words), *expected, "{text}");
    }
    assert_covers("tergyosul_condition", &forms.map(|(constant, _, words, _)| (constant, words[0])));
}

/// Each day alone, and all seven: the header's sums, and the words that are shown.
#[test]
fn every_day() {
    let mut sums: Vec<(String, u32)> = Vec::new();
    for (day, place) in Day::ALL.iter().zip(0..) {
        let read = condition(&format!("day in {day}"), &[16, 1 << place]);
        assert_eq!(read, Condition::DayIn(days(&[*day])));
        sums.push((day.word().to_uppercase(), 1 << place));
    }
    sums.push(("EVERY_DAY".to_string(), 127));
    assert_eq!(sums, constants("tergyosul_day"));
}

/// What a word of the layout can be as a set, and how a set is asked and shown.
#[test]
fn a_set_of_days() {
    for sum in 1..=127 {
        let set = Days::of_sum(sum).expect("a sum of days");
        let listed: Vec<Day> = set.iter().collect();
        assert_eq!(listed.iter().map(|day| 1 << *day as u32).sum::<u32>(), sum);
        assert!(listed.is_sorted() && Day::ALL.iter().all(|day| set.contains(*day) == listed.contains(day)));
        assert_eq!(listed.iter().rev().chain(&listed).copied().collect::<Days>(), set);
        let text = listed.iter().map(|day| day.word()).collect::<Vec<_>>().join(", ");
        assert_eq!((set.to_string(), format!("{set:?}")), (text.clone(), format!("Days({text})")));
    }
    assert_eq!([0, 128, 255, 256, 257, u32::MAX].map(Days::of_sum), [None; 6]);
    assert_eq!(Days::of_sum(127), Some(Days::EVERY_DAY));
}

#[test]
fn every_comparison() {
    use Comparison::*;
    for ((sign, comparison), code) in [("==", Eq), ("!=", Ne), (">=", Ge), ("<=", Le), (">", Gt), ("<", Lt)].iter().zip(1..) {
        let read = condition(&format!("lamp(\"Till\").level {sign} 1"), &[4, 1, 7, code, 1, 0, 0, 0, 0, 1, 0]);
        assert_eq!(read, Condition::LampLevel(TILL, *comparison, Value::Literal(1)));
    }
}

/// Each reading alone, and with a number added to it, in all three places that take a value.
#[test]
fn every_reading() {
    use Reading::*;
    let forms: [(&str, &str, [u32; 3], Reading); 22] = [
        ("READ_LAMP_LEVEL", "lamp(\"Till\").level", [1, 7, 0], LampLevel(TILL)),
        ("READ_LAMP_CCT", "lamp(\"Till\").cct", [1, 7, 0], LampCct(TILL)),
        ("READ_LAMP_IS_ON", "lamp(\"Till\").is_on", [1, 7, 0], LampIsOn(TILL)),
        ("READ_LAMP_LAST_LEVEL", "lamp(\"Till\").last_level", [1, 7, 0], LampLastLevel(TILL)),
        ("READ_GROUP_ANY_ON", "group(1).any_on", [0, 1, 0], GroupAnyOn(FLOOR)),
        ("READ_GROUP_ALL_OFF", "group(1).all_off", [0, 1, 0], GroupAllOff(FLOOR)),
        ("READ_GROUP_MEMBER_COUNT", "group(1).member_count", [0, 1, 0], GroupMemberCount(FLOOR)),
        ("READ_INPUT_OCCUPIED", "input(5, 2).occupied", [0, 5, 2], InputOccupied(door(2))),
        ("READ_INPUT_LIGHT", "input(5, 2).light", [0, 5, 2], InputLight(door(2))),
        ("READ_INPUT_POSITION", "input(5, 2).position", [0, 5, 2], InputPosition(door(2))),
        ("READ_INPUT_LAST_EVENT_AGE", "input(5, 2).last_event_age", [0, 5, 2], InputLastEventAge(door(2))),
        ("READ_TIME_NOW", "time.now", [0; 3], TimeNow),
        ("READ_TIME_HOUR", "time.hour", [0; 3], TimeHour),
        ("READ_TIME_MINUTE", "time.minute", [0; 3], TimeMinute),
        ("READ_TIME_WEEKDAY", "time.weekday", [0; 3], TimeWeekday),
        ("READ_SUN_RISE", "sun.rise", [0; 3], SunRise),
        ("READ_SUN_SET", "sun.set", [0; 3], SunSet),
        ("READ_SUN_IS_UP", "sun.is_up", [0; 3], SunIsUp),
        ("READ_EVENT_VALUE", "event.value", [0; 3], EventValue),
        ("READ_EVENT_DEVICE", "event.device", [0; 3], EventDevice),
        ("READ_EVENT_INSTANCE", "event.instance", [0; 3], EventInstance),
        ("READ_EVENT_OPTION", "event.option", [0; 3], EventOption),
    ];
    let mut codes: Vec<(&str, u32)> = forms.iter().map(|form| form.0).zip(1..).collect();
    for ((_, text, [a, b, c], reading), (_, code)) in forms.iter().zip(&codes) {
        assert_values(text, [*code, *a, *b, *c], |_| *reading);
    }
    assert_values("var(\"count\")", [23, 5, 5, 0], |start| Var(name(start + 5, 5)));
    codes.push(("READ_VAR", 23));
    assert_covers("tergyosul_reading", &codes);
}

/// A reading in each place; `of` makes it from the offset at which its text stands.
fn assert_values(text: &str, [code, a, b, c]: [u32; 4], of: impl Fn(u32) -> Reading) {
    for (front, head) in [
        ("lamp(\"Till\").cct < ", &[5, 1, 7, 6][..]),
        ("input(5, 2).light below ", &[8, 0, 5, 2, 2]),
        ("var(\"x\") > ", &[15, IF + 5, 1, 5]),
    ] {
        let start = IF + front.len() as u32;
        let a = if code == 23 { start + a } else { a };
        for (behind, kind, low, high) in [("", 2, 0, 0), (" + 7", 3, 7, 0), (" - 7", 3, u32::MAX - 6, u32::MAX)] {
            let words = [head, &[kind, code, a, b, c, low, high]].concat();
            let expected = match behind {
                "" => Value::Reads(of(start)),
                " + 7" => Value::Offset(of(start), 7),
                _ => Value::Offset(of(start), -7),
            };
            let value = match condition(&format!("{front}{text}{behind}"), &words) {
                Condition::LampCct(TILL, Comparison::Lt, value) => value,
                Condition::InputLight(_, Crossing::Below, value) => value,
                Condition::VarCompare(_, Comparison::Gt, Operand::Number(value)) => value,
                other => panic!("{front}{text}{behind} is read as {other:?}"),
            };
            assert_eq!(value, expected, "{front}{text}{behind}");
        }
    }
}

#[test]
fn four_of_each_in_their_order() {
    let text = b"when http trigger when controller starts when at 0:01 when every 1s \
if sun is up and sun is down and controller is active and device(9) is online";
    let rule = read(text, SHEET, ZERO, &mut [0; TOKEN_WORDS]).unwrap();
    let at = Trigger::AtTime(1, Days::EVERY_DAY);
    let triggers = [Trigger::HttpTrigger, Trigger::ControllerStarts, at, Trigger::Every(1_000)];
    let conditions = [
        Condition::SunIs(Sun::Up),
        Condition::SunIs(Sun::Down),
        Condition::ControllerActive,
        Condition::DeviceOnline(GATEWAY),
    ];
    assert_eq!(rule.triggers(), triggers);
    assert_eq!(rule.conditions(), conditions);
    let shown = format!("{:?}", read(b"when http trigger", SHEET, ZERO, &mut [0; TOKEN_WORDS]).unwrap());
    assert_eq!(shown, "Rule { triggers: [HttpTrigger], conditions: [] }");
}

#[test]
fn a_name_is_a_range_of_the_text() {
    let text = "when timer(\"Käse\") fires if var(\"mode\") == \"\"".as_bytes();
    let rule = read(text, SHEET, ZERO, &mut [0; TOKEN_WORDS]).unwrap();
    let [Trigger::TimerFires(timer)] = rule.triggers() else { panic!("a timer") };
    assert_eq!(timer.of(text), Some("Käse".as_bytes()));
    let [Condition::VarCompare(mode, Comparison::Eq, Operand::Text(empty))] = rule.conditions() else { panic!("a var") };
    assert_eq!((mode.of(text), empty.of(text)), (Some(&b"mode"[..]), Some(&b""[..])));
    assert_eq!(timer.of(&text[..16]), None);
    assert_eq!(name(u32::MAX, u32::MAX).of(text), None);
    assert_eq!(name(45, 0).of(&[0; 45]), Some(&[][..]));
}

#[test]
fn empty_slices_and_short_words() {
    let refused = |text: &[u8], sheet: &[u8], words: &mut [u32]| read(text, sheet, ZERO, words).unwrap_err();
    let refusal = |number, line, column| Refusal { number, line, column, detail: 0 };
    assert_eq!(refused(b"", b"", &mut []), refusal(2, 0, 0));
    assert_eq!(refused(b"", b"", &mut [0; TOKEN_WORDS]), refusal(3, 1, 0));
    assert_eq!(refused(b"", SHEET, &mut [0; TOKEN_WORDS]), refusal(38, 1, 1));
    assert_eq!(refused(b"when http trigger", SHEET, &mut [0; TOKEN_WORDS - 1]), refusal(2, 0, 0));
    assert_eq!(refused(&[b' '; 16_385], b"", &mut []), refusal(1, 0, 0));
    assert_eq!(refused(&[b' '; 16_384], &[b','; 16_385], &mut [0; TOKEN_WORDS]), refusal(3, 0, 0));
    // The text, the sheet and the topics are only read, so they may be the same bytes.
    let all = Call { topics: SHEET, ..ZERO };
    assert_eq!(read(SHEET, SHEET, all, &mut [0; TOKEN_WORDS]), Err(refusal(38, 1, 1)));
}

#[test]
fn a_detail_comes_with_its_refusal() {
    let text = b"when lamp(\"Till\", adapter=0) turns on";
    let refusal = read(text, SHEET, ZERO, &mut [0; TOKEN_WORDS]).unwrap_err();
    assert_eq!(refusal, Refusal { number: 32, line: 1, column: 11, detail: 1 });
    assert_eq!(refusal.to_string(), "1:11: the name stands on another adapter, adapter 1 (refusal 32)");
    let refusal = read(b"when lamp(\"Bakery\") turns on", SHEET, ZERO, &mut [0; TOKEN_WORDS]).unwrap_err();
    assert_eq!(refusal.to_string(), "1:11: several rows on one adapter have the name, 2 rows (refusal 33)");
}

/// Both calls write the same records; only what they say of the repeat differs.
#[test]
fn a_repeat_is_refused_but_for_the_archive() {
    let text = b"when input(dev=3, dev=5, inst=0) is press";
    let [mut words, mut archive_words] = [[9; TOKEN_WORDS]; 2];
    let refusal = read(text, SHEET, ZERO, &mut words).unwrap_err();
    assert_eq!(refusal, Refusal { number: 63, line: 1, column: 19, detail: 0 });
    assert_eq!(refusal.to_string(), "1:19: an argument is given a second time (refusal 63)");
    let rule = read_archive(text, SHEET, ZERO, &mut archive_words).unwrap();
    assert_eq!(rule.triggers(), [Trigger::InputEvent(Selector::Instance(DOOR, 0), Event::Press)]);
    assert_eq!(words, archive_words);
}

/// The calls answer alike, in every word, where `read` does not say 63.
#[test]
fn without_a_repeat_the_calls_are_alike() {
    let refused = [&b"when input(dev=1, foo=2) is press"[..], b"when input(1, 2, 3) is press", b"when @", b"when \xFF", b"when"];
    let accepted = [&b"when input(dev=5, inst=0) is press"[..], b"when lamp(\"Till\") turns on"];
    for text in refused.into_iter().chain(accepted) {
        let [mut words, mut archive_words] = [[9; TOKEN_WORDS]; 2];
        let [mut answer, mut archive_answer] = [[7; ANSWER_WORDS + 1]; 2];
        let number = boundary::read(text, SHEET, ZERO, &mut words, &mut answer);
        assert_eq!(boundary::read_archive(text, SHEET, ZERO, &mut archive_words, &mut archive_answer), number);
        assert_eq!((words, answer), (archive_words, archive_answer));
        assert_eq!(number == 0, accepted.contains(&text));
    }
}

/// Nothing is read and nothing is written, be the text accepted or refused, the sheet bad, or the words too few.
#[test]
fn no_room_for_the_answer() {
    let mut answer = [7; ANSWER_WORDS - 1];
    let [mut words, mut others] = [[9; TOKEN_WORDS]; 2];
    let mut out = [9; LEAST_BYTES];
    for (text, sheet) in [(&b"when http trigger"[..], SHEET), (b"when", SHEET), (b"when http trigger", b"")] {
        assert_eq!(boundary::read(text, sheet, ZERO, &mut words, &mut answer), boundary::NO_ROOM);
        assert_eq!(boundary::read(text, sheet, ZERO, &mut words, &mut []), boundary::NO_ROOM);
        assert_eq!(boundary::read(text, sheet, ZERO, &mut [], &mut answer), boundary::NO_ROOM);
        assert_eq!(boundary::read_archive(text, sheet, ZERO, &mut words, &mut answer), boundary::NO_ROOM);
        assert_eq!(boundary::read_shop(text, sheet, ZERO, &mut words, &mut answer), boundary::NO_ROOM);
        let both: [&mut [u32]; 2] = [&mut words, &mut others];
        assert_eq!(boundary::join([text; 2], sheet, ZERO, both, &mut answer), boundary::NO_ROOM);
        let lists = self::answer("when http trigger");
        let short = &mut answer[..WRITE_WORDS - 1];
        assert_eq!(boundary::write([text; 2], sheet, ZERO.party, &lists, &mut out, short), boundary::NO_ROOM);
        assert_eq!(boundary::write([text; 2], sheet, ZERO.party, &lists, &mut [], &mut []), boundary::NO_ROOM);
        assert_eq!(boundary::rows_back(sheet, ZERO.party, &lists, &mut out, short), boundary::NO_ROOM);
        assert_eq!(boundary::rows_back(sheet, ZERO.party, &lists, &mut [], &mut []), boundary::NO_ROOM);
        for rows in [&b"lamp,Till,,on\n"[..], b"lamp", b""] {
            assert_eq!(boundary::rows(rows, sheet, ZERO.party, &mut answer), boundary::NO_ROOM);
            assert_eq!(boundary::rows(rows, sheet, ZERO.party, &mut []), boundary::NO_ROOM);
        }
    }
    for text in [&b"when http trigger"[..], b"when @"] {
        assert_eq!(boundary::lex(text, &mut words, &mut answer[..LEX_WORDS - 1]), boundary::NO_ROOM);
        assert_eq!(boundary::lex(text, &mut words, &mut []), boundary::NO_ROOM);
    }
    for start in [&[][..], &[1, 3, 7], &[23]] {
        assert_eq!(boundary::next_chain(start, &mut answer[..CHAIN_WORDS - 1]), boundary::NO_ROOM);
        assert_eq!(boundary::next_chain(start, &mut []), boundary::NO_ROOM);
    }
    assert!(answer.iter().all(|&word| word == 7));
    assert!(words.iter().chain(&others).all(|&word| word == 9));
    assert!(out.iter().all(|&byte| byte == 9));
    let refusal = with_room(boundary::NO_ROOM).unwrap_err();
    assert_eq!(refusal.to_string(), "there is no room for the answer (refusal 4294967295)");
    assert_eq!(with_room(20), Ok(()));
}

#[test]
fn the_lengths_are_the_headers() {
    let defined = |name: &str| -> u32 {
        let line = HEADER.lines().find_map(|line| line.strip_prefix(&format!("#define TERGYOSUL_{name} ")));
        line.expect("the header has it").trim_end_matches('u').parse().expect("it is a number")
    };
    assert_eq!(defined("RECORD"), RECORD_WORDS as u32);
    assert_eq!(defined("TOKEN_WORDS"), TOKEN_WORDS as u32);
    assert_eq!(defined("ANSWER_WORDS"), ANSWER_WORDS as u32);
    assert_eq!(defined("LEX_WORDS"), LEX_WORDS as u32);
    assert_eq!(defined("WRITE_WORDS"), WRITE_WORDS as u32);
    assert_eq!(defined("WRITE_LENGTH"), WRITE_WORDS as u32 - 1);
    assert_eq!(defined("LEAST_BYTES"), LEAST_BYTES as u32);
    assert_eq!(defined("ROWS_LEAST_BYTES"), ROWS_LEAST_BYTES as u32);
    assert_eq!(defined("ROWS_MOST_BYTES"), ROWS_MOST_BYTES as u32);
    assert_eq!(defined("CHAIN_WORDS"), CHAIN_WORDS as u32);
    assert_eq!(defined("MOST_PIECES"), MOST_PIECES as u32);
    assert_eq!(defined("NO_ROOM"), boundary::NO_ROOM);
}

#[test]
fn a_longer_answer_keeps_its_end() {
    let mut answer = [7; ANSWER_WORDS + 5];
    assert_eq!(boundary::read(b"when http trigger", SHEET, ZERO, &mut [0; TOKEN_WORDS], &mut answer), 0);
    assert_eq!(answer[ANSWER_WORDS..], [7; 5]);
}

#[test]
fn lexing_alone() {
    let mut words = [9; TOKEN_WORDS];
    assert_eq!(lex(b"when 5s", &mut words), Ok(2));
    assert_eq!(words[..11], [1, 0, 0, 4, 65_537, 5, 5_000, 5, 2, 65_542, 9]);
    assert_eq!(lex(b"when @", &mut words), Err(Refusal { number: 10, line: 1, column: 6, detail: 0 }));
    assert_eq!(lex(b"", &mut []), Err(Refusal { number: 2, line: 0, column: 0, detail: 0 }));
}

/// Each word of a record is where the header's constant says, and a token has the same.
#[test]
fn a_token_is_its_record() {
    let text = "\n \"Käse\" 7:05 1.5".as_bytes();
    let mut words = [9; TOKEN_WORDS];
    assert_eq!(lex(text, &mut words), Ok(3));
    let shown = |t: Token| (t.kind, t.number, t.bytes.of(text).unwrap_or_default(), t.line(), t.column());
    let read: Vec<_> = tokens(&words).take(3).map(shown).collect();
    let expected = [(2, 0, "Käse".as_bytes(), 2, 2), (4, 425, b"7:05", 2, 9), (6, 15_000, b"1.5", 2, 14)];
    assert_eq!(read, expected);
    assert_eq!((tokens(&words).count(), tokens(&words[..4]).count()), (1_024, 0));

    let at = constants("tergyosul_record");
    let record: Vec<(String, u32)> = at.iter().map(|(name, k)| (name.clone(), words[RECORD_WORDS + *k as usize])).collect();
    let named = [("KIND", 4), ("NUMBER", 425), ("START", 10), ("LENGTH", 4), ("PLACE", 2 * 65_536 + 9)];
    assert_eq!(record, named.map(|(name, word)| (format!("TOKEN_{name}"), word)));
}

/// The last places that a text can have, in a line and down the lines, for a token and for the end.
#[test]
fn the_farthest_places() {
    let mut words = [9; TOKEN_WORDS];
    for (byte, token, end) in [(b' ', (1, 16_384), (1, 16_385)), (b'\n', (16_384, 1), (16_385, 1))] {
        let mut text = [byte; 16_384];
        assert_eq!(read(&text, SHEET, ZERO, &mut words).map_err(|r| (r.number, r.line, r.column)), Err((38, end.0, end.1)));
        text[16_383] = b'(';
        assert_eq!(lex(&text, &mut words), Ok(1));
        let found = tokens(&words).next().expect("there is one");
        assert_eq!((found.line(), found.column()), token);
    }
}

#[test]
fn lexing_refuses_what_is_not_utf8() {
    let mut words = [9; TOKEN_WORDS];
    assert_eq!(lex(b"a \xFF", &mut words), Err(Refusal { number: 4, line: 1, column: 3, detail: 0 }));
    assert_eq!(words, [9; TOKEN_WORDS]);
    // 1 and 2 are asked before 4
    assert_eq!(lex(b"\xFF", &mut words[1..]), Err(Refusal { number: 2, line: 0, column: 0, detail: 0 }));
    assert_eq!(lex(&[0xFF; 16_385], &mut []), Err(Refusal { number: 1, line: 0, column: 0, detail: 0 }));
}

#[test]
fn every_refusal_has_its_own_meaning() {
    let refusal = |number| Refusal { number, line: 2, column: 3, detail: 4 };
    let known = |number| matches!(number, 1..=4 | 10..=13 | 15..=41 | 50..=67);
    let mut meanings: Vec<&str> = (0..100).filter(|&n| known(n)).map(|n| refusal(n).meaning()).collect();
    assert_eq!(meanings.len(), 53);
    meanings.sort();
    meanings.dedup();
    assert_eq!(meanings.len(), 53);
    let unknown = refusal(0).meaning();
    assert!((0..100).all(|n| known(n) != (refusal(n).meaning() == unknown)));
    assert_eq!(refusal(3).to_string(), "sheet line 2: the sheet is not well formed (refusal 3)");
    assert_eq!(Refusal { line: 0, ..refusal(1) }.to_string(), "the text has more than 16384 bytes (refusal 1)");
    let others = Refusal { line: 0, column: 0, ..refusal(53) };
    assert_eq!(others.to_string(), "the primary adapter is not the party's (refusal 53)");
    assert_eq!(refusal(55).to_string(), "entry 2: no text gives such lists (refusal 55)");
    assert_eq!(Refusal { line: 0, ..refusal(55) }.to_string(), "no text gives such lists (refusal 55)");
    assert_eq!(refusal(62).to_string(), "entry 2: the sheet has no name for it that a row can have (refusal 62)");
    assert_eq!(Refusal { column: 0, ..refusal(60) }.to_string(), "row 2: one to four well-formed rows belong here (refusal 60)");
    assert_eq!(Refusal { column: 0, ..refusal(32) }.to_string(), "row 2: the name stands on another adapter, adapter 4 (refusal 32)");
    assert_eq!(refusal(20).to_string(), "2:3: something else belongs here (refusal 20)");
    assert_eq!(refusal(34).to_string(), "2:3: several adapters have the name, 4 rows (refusal 34)");
}

#[test]
fn a_broken_adapter_is_seen() {
    assert_eq!((layout::adapter(0), layout::adapter(255)), (0, 255));
    assert!(std::panic::catch_unwind(|| layout::adapter(256)).is_err());
}

/// No word of an answer leads to anything but a value or the panic.
#[test]
fn a_broken_answer_is_seen() {
    let decoded = |words: &[(usize, u32)]| {
        let mut answer = [0; ANSWER_WORDS];
        words.iter().for_each(|&(at, word)| answer[at] = word);
        std::panic::catch_unwind(|| layout::rule(&answer)).map_err(|panic| *panic.downcast::<&str>().expect("a message"))
    };
    let broken = Err("the answer does not follow its layout");
    assert!(decoded(&[(4, 1), (12, 20)]).is_ok());
    let cases: [&[(usize, u32)]; 21] = [
        &[(4, 5)],
        &[(5, u32::MAX)],
        &[(4, 1)],
        &[(4, 1), (12, 22)],
        &[(4, 1), (12, u32::MAX)],
        &[(4, 1), (12, 10), (15, 0)],
        &[(4, 1), (12, 10), (15, 3)],
        &[(4, 1), (12, 1), (13, 3)],
        &[(4, 1), (12, 1), (13, 1), (17, 14)],
        &[(4, 1), (12, 15), (13, 4)],
        &[(4, 1), (12, 7), (14, 0)],
        &[(4, 1), (12, 7), (14, 128)],
        &[(4, 1), (12, 8), (13, 1), (15, 0)],
        &[(5, 1), (60, 17)],
        &[(5, 1), (60, 16), (61, 0)],
        &[(5, 1), (60, 16), (61, 256)],
        &[(5, 1), (60, 1), (61, 3)],
        &[(5, 1), (60, 4), (63, 7)],
        &[(5, 1), (60, 4), (63, 1), (64, 4)],
        &[(5, 1), (60, 4), (63, 1), (64, 2), (65, 24)],
        &[(5, 1), (60, 15), (63, 1), (64, 5)],
    ];
    for words in cases {
        assert_eq!(decoded(words), broken, "{words:?}");
    }
}

/// Row 0 of an answer of `tergyosul_join`, by the header's places.
#[test]
fn a_joining_says_its_texts() {
    assert_covers("tergyosul_origin", &[("WHICH", layout::WHICH as u32), ("TRIGGERS_FROM", 7), ("CONDITIONS_FROM", 11)]);
    let row = |first: &[u8], second: &[u8]| {
        let [mut words, mut others] = [[0; TOKEN_WORDS]; 2];
        let mut answer = [u32::MAX; ANSWER_WORDS];
        let number = boundary::join([first, second], SHEET, ZERO, [&mut words, &mut others], &mut answer);
        assert_eq!(number, answer[0]);
        let [row @ .., _, _] = *answer.first_chunk::<14>().expect("row 0");
        row
    };
    let one = b"when http trigger when every 1s if sun is up";
    let two = b"when every 1s when every 2s if sun is up";
    assert_eq!(row(one, two), [0, 0, 0, 0, 3, 1, 0, 1, 1, 2, 0, 1]);
    assert_eq!(row(b"when every 1s", b"when every 1s"), [0, 0, 0, 0, 1, 0, 0, 1, 0, 0, 0, 0]);
    assert_eq!(row(b"when", two), [20, 1, 5, 0, 0, 0, 1, 0, 0, 0, 0, 0]);
    assert_eq!(row(one, b"when"), [20, 1, 5, 0, 0, 0, 2, 0, 0, 0, 0, 0]);
    assert_eq!(row(one, b"when every 1s"), [51, 0, 0, 0, 0, 0, 0, 0, 0, 0, 0, 0]);
}

/// A joining whose words for the texts do not fit the rest.
#[test]
fn a_broken_joining_is_seen() {
    let decoded = |words: &[(usize, u32)]| {
        let mut answer = [0; ANSWER_WORDS];
        words.iter().for_each(|&(at, word)| answer[at] = word);
        std::panic::catch_unwind(|| layout::joined(&answer)).map_err(|panic| *panic.downcast::<&str>().expect("a message"))
    };
    let broken = Err("the answer does not follow its layout");
    assert!(decoded(&[(4, 1), (7, 2), (12, 20)]).is_ok());
    assert!(decoded(&[(4, 1), (5, 1), (7, 1), (11, 1), (12, 20), (60, 14)]).is_ok());
    let cases: [&[(usize, u32)]; 8] = [
        &[(4, 1), (12, 20)],
        &[(4, 1), (7, 3), (12, 20)],
        &[(4, 1), (7, 1), (8, 1), (12, 20)],
        &[(4, 1), (6, 1), (7, 1), (12, 20)],
        &[(4, 1), (7, 1), (11, 1), (12, 20)],
        &[(4, 1), (5, 1), (7, 1), (12, 20), (60, 14)],
        &[(4, 1), (5, 1), (7, 1), (11, 2), (12, 20), (60, 14)],
        &[(0, 20), (6, 3)],
    ];
    for words in cases {
        assert_eq!(decoded(words), broken, "{words:?}");
    }
}

/// Every word of an answer of `tergyosul_write`, no word behind it and no byte behind the text.
#[test]
fn a_written_text_and_its_words() {
    let written = |lists: &[u32], size: usize| {
        let mut out = [9; LEAST_BYTES + 1];
        let mut answer = [7; WRITE_WORDS + 1];
        let number = boundary::write([b""; 2], SHEET, ZERO.party, lists, &mut out[..size], &mut answer);
        let [words @ .., behind] = answer;
        let (text, rest) = out.split_at(words[WRITE_WORDS - 1] as usize);
        assert_eq!((number, behind), (words[0], 7));
        assert!(rest.iter().all(|&byte| byte == 9));
        (words, text.to_vec())
    };
    let text = "when http trigger if sun is up";
    let lists = answer(text);
    let refused = |number, line| ([number, line, 0, 0, 0], Vec::new());
    for (lists, size) in [(&lists[..], LEAST_BYTES), (&lists, LEAST_BYTES + 1), (&lists[..62], LEAST_BYTES)] {
        assert_eq!(written(lists, size), ([0, 0, 0, 0, 30], text.as_bytes().to_vec()));
    }
    assert_eq!(written(&lists, LEAST_BYTES - 1), refused(54, 0));
    assert_eq!(written(&lists[..61], LEAST_BYTES), refused(55, 2));
    assert_eq!(written(&lists[..12], LEAST_BYTES), refused(55, 1));
    assert_eq!(written(&[], LEAST_BYTES), refused(55, 0));
}

/// The same of `tergyosul_rows_back`, and every word of an answer of `tergyosul_rows`.
#[test]
fn rows_and_their_words() {
    let rows = b"lamp,Till,,on\ngroup,Sales floor,0,all_off\ndevice,Gateway,,online\n";
    let mut lists = [u32::MAX; ANSWER_WORDS + 1];
    assert_eq!(boundary::rows(rows, SHEET, ZERO.party, &mut lists), 0);
    assert_row(&lists, 0, &[0, 0, 0, 0, 3, 0], "row 0");
    assert_row(&lists, 1, &[10, 1, 7, 1], "a lamp");
    assert_row(&lists, 2, &[12, 0, 1, 2], "a group");
    assert_row(&lists, 3, &[14, 0, 9, 2], "a device");
    assert!(lists[48..ANSWER_WORDS].iter().all(|&word| word == 0));
    assert_eq!(lists[ANSWER_WORDS], u32::MAX);
    let written = |lists: &[u32], size: usize| {
        let mut out = [9; ROWS_LEAST_BYTES + 1];
        let mut answer = [7; WRITE_WORDS + 1];
        let number = boundary::rows_back(SHEET, ZERO.party, lists, &mut out[..size], &mut answer);
        let [words @ .., behind] = answer;
        let (rows, rest) = out.split_at(words[WRITE_WORDS - 1] as usize);
        assert_eq!((number, behind), (words[0], 7));
        assert!(rest.iter().all(|&byte| byte == 9));
        (words, rows.to_vec())
    };
    let back = b"lamp,Till,1,on\ngroup,Sales floor,0,all_off\ndevice,Gateway,0,online\n";
    let refused = |number, line| ([number, line, 0, 0, 0], Vec::new());
    for (lists, size) in [(&lists[..], ROWS_LEAST_BYTES), (&lists, ROWS_LEAST_BYTES + 1), (&lists[..40], ROWS_LEAST_BYTES)] {
        assert_eq!(written(lists, size), ([0, 0, 0, 0, back.len() as u32], back.to_vec()));
    }
    assert_eq!(written(&lists, ROWS_LEAST_BYTES - 1), refused(54, 0));
    assert_eq!(written(&lists[..39], ROWS_LEAST_BYTES), refused(61, 3));
    assert_eq!(written(&lists[..12], ROWS_LEAST_BYTES), refused(61, 1));
    assert_eq!(written(&[], ROWS_LEAST_BYTES), refused(61, 0));
    assert_eq!(boundary::rows(b"lamp,Bakery,,on\n", SHEET, ZERO.party, &mut lists), 33);
    assert_row(&lists, 0, &[33, 1, 0, 2], "a refusal");
    assert!(lists[12..ANSWER_WORDS].iter().all(|&word| word == 0));
}

/// The length of rows that another library made up.
#[test]
fn broken_rows_are_seen() {
    let broken = |length| std::panic::catch_unwind(|| rows_in(b"row\n", length).len()).is_err();
    assert!(broken(5) && !broken(4) && !broken(0));
}

/// The length of a text that another library made up, or bytes that are no text.
#[test]
fn a_broken_text_is_seen() {
    let broken = |bytes: &'static [u8], length| std::panic::catch_unwind(|| text_in(bytes, length).len()).is_err();
    assert!(broken(b"when", 5) && broken(b"wh\xC3", 3));
    assert!(!broken(b"when", 4) && !broken(b"", 0) && !broken(b"wh\xC3", 2));
}

/// Every word of an answer of `tergyosul_next_chain`, and no word behind it.
#[test]
fn a_chain_is_its_words() {
    let answer = |start: &[u8]| {
        let mut answer = [7; CHAIN_WORDS + 2];
        let number = boundary::next_chain(start, &mut answer);
        assert_eq!((number, &answer[CHAIN_WORDS..]), (answer[0], &[7, 7][..]));
        answer[..CHAIN_WORDS].to_vec()
    };
    let words = |front: &[u32]| [front, &[0; CHAIN_WORDS][front.len()..]].concat();
    assert_eq!(answer(&[]), words(&[0, 0, 0, 0, 3, 1, 3, 7]));
    assert_eq!(answer(&[1, 3, 8]), words(&[0, 0, 0, 0, 5, 2, 4, 9, 19, 9]));
    assert_eq!(answer(&[2, 4, 10, 19, 10, 12, 2, 4, 10, 19, 10, 12, 1, 3, 8]), words(&[]));
    assert_eq!(answer(&[1, 3]), words(&[67]));
}

/// The header's pieces are the vocabulary's, in its order; signs have names there.
#[test]
fn the_pieces_are_the_headers() {
    let signs = [("(", "OPEN"), (")", "CLOSE"), (".", "POINT"), ("..", "POINTS"), ("==", "EQUAL"), ("+", "PLUS"), ("-", "MINUS")];
    let named = |word: &str| signs.iter().find(|(sign, _)| *sign == word).map_or(word.to_uppercase(), |(_, name)| name.to_string());
    let pieces: Vec<(String, u32)> = VOCABULARY.iter().map(|word| format!("PIECE_{}", named(word))).zip(0..).collect();
    assert_eq!(pieces, constants("tergyosul_piece"));
}

#[test]
fn a_broken_chain_is_seen() {
    let broken = |at: usize, word: u32| {
        let mut answer = [0; CHAIN_WORDS];
        answer[4] = 3;
        answer[at] = word;
        std::panic::catch_unwind(|| decoded(&answer)).is_err()
    };
    assert!(broken(4, 16) && broken(4, u32::MAX) && broken(5, 23) && broken(19, 256));
    assert!(!broken(4, 15) && !broken(5, 22));
}
