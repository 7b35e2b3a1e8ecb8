//! An accepted text for each form, with the whole answer. In these texts one space parts the tokens, so that the
//! token lines of the answer follow from the text by a few plain rules.

mod common;
use common::*;

const SIGNS: [&str; 16] =
    ["(", ")", "{", "}", ",", ".", "..", "=", "==", "!=", ">=", "<=", ">", "<", "+", "-"];

/// The kind and number of a token that stands alone.
fn kind_and_number(token: &str) -> (usize, u64) {
    let digits = |text: &str| text.parse::<u64>().unwrap();
    if let Some(sign) = SIGNS.iter().position(|sign| *sign == token) {
        return (7 + sign, 0);
    }
    if !token.starts_with(|c: char| c.is_ascii_digit()) {
        return (if token.starts_with('"') { 2 } else { 1 }, 0);
    }
    if let Some((hour, minute)) = token.split_once(':') {
        return (4, digits(hour) * 60 + digits(minute));
    }
    match [("ms", 1), ("s", 1_000), ("m", 60_000), ("h", 3_600_000)].iter().find(|unit| token.ends_with(unit.0)) {
        Some((unit, ms)) => (5, digits(token.strip_suffix(unit).unwrap()) * ms),
        None => (3, digits(token)),
    }
}

/// The token lines of a text of one line whose tokens are parted by one space.
fn token_lines(text: &str) -> String {
    let (mut start, mut column, mut lines) = (0, 1, String::new());
    for token in text.split(' ') {
        let (kind, number) = kind_and_number(token);
        let quote = usize::from(kind == 2);
        let (from, length) = (start + quote, token.len() - 2 * quote);
        lines += &format!("token {kind} {number} {from} {length} 1 {column}\n");
        start += token.len() + 1;
        column += token.chars().count() + 1;
    }
    lines
}

/// Asserts the whole answer to a text with the sheet `ALL`.
fn answers(text: &str, verdict: &str) {
    let expected = format!("case 1\n{}buffer kept\n{verdict}\n", token_lines(text));
    assert_eq!(second::answer(&case(text.as_bytes(), ALL.as_bytes())), expected, "{text}");
}

fn triggers(table: &[(&str, &str)]) {
    for (text, record) in table {
        answers(&format!("when {text}"), &format!("accepted 1 0\nT {record}"));
    }
}

fn conditions(table: &[(&str, &str)]) {
    for (text, record) in table {
        let verdict = format!("accepted 1 1\nT http_trigger\nC {record}");
        answers(&format!("when http trigger if {text}"), &verdict);
    }
}

/// Values, as what a lamp's level is compared with.
fn values(table: &[(&str, &str)]) {
    for (text, value) in table {
        conditions(&[(&format!("lamp ( 1 ) . level == {text}"), &format!("lamp_level 2 1 eq {value}"))]);
    }
}

#[test]
fn each_trigger() {
    triggers(&[
        ("timer ( \"Té\" ) fires", "timer_fires x54c3a9"),
        ("rule ( \"r\" ) fails", "rule_fails x72"),
        ("controller starts", "controller_starts"),
        ("controller becomes active", "controller_becomes_active"),
        ("http trigger", "http_trigger"),
        ("mqtt \"a/b\"", "mqtt x612f62"),
        ("every 1000ms", "every 1000"),
        ("every 1193h", "every 4294800000"),
        ("at 0:00", "at_time 0"),
        ("at 23:59", "at_time 1439"),
        ("at sunrise", "at_solar sunrise 0"),
        ("at sunset + 5m", "at_solar sunset 300000"),
        ("at sunset - 30s", "at_solar sunset -30000"),
        ("scene ( 15 ) recalled", "scene_recalled 2 15"),
        ("scene ( 0 , adapter = 3 ) recalled", "scene_recalled 3 0"),
        ("device ( 63 ) goes offline", "device_online 2 63 goes_offline"),
        ("device ( \"Device\" ) comes online", "device_online 2 63 comes_online"),
        ("group ( 15 , adapter = 3 ) becomes any_on", "group_becomes 3 15 any_on"),
        ("group ( \"Group\" ) becomes all_off", "group_becomes 3 15 all_off"),
        ("hcl override starts for lamp ( \"Lamp\" )", "hcl_override lamp 2 5 starts"),
        ("hcl override clears for group ( 1 )", "hcl_override group 2 1 clears"),
        ("hcl override clears for broadcast", "hcl_override broadcast 2 clears"),
        ("lamp ( 63 ) turns on", "lamp_turns 2 63 on"),
        ("lamp ( 0 , adapter = 3 ) turns off", "lamp_turns 3 0 off"),
        ("lamp ( \"Lamp\" , adapter = 2 ) . level crosses above 254", "lamp_level_cross 2 5 above 254"),
        ("lamp ( 1 ) . level crosses below 0", "lamp_level_cross 2 1 below 0"),
        ("input device ( 63 ) power cycled", "input_device_power_cycled 2 63"),
        ("input device ( dev = \"Both\" , adapter = 2 ) power cycled", "input_device_power_cycled 2 1"),
        ("input device ( \"Input\" ) manual config changed", "input_device_manual_config_changed 3 9"),
        ("input ( 1 , 31 ) becomes occupied", "input_occupancy 2 1 31 occupied"),
        ("input ( \"Input\" , 0 ) becomes vacant", "input_occupancy 3 9 0 vacant"),
        ("input ( 1 , 2 ) . light crosses above 1023", "input_light_cross 2 1 2 above 1023"),
        ("input ( 1 , 2 ) . light crosses below 0", "input_light_cross 2 1 2 below 0"),
        ("input ( 1 , 2 ) . position changes", "input_position_change 2 1 2"),
    ]);
}

#[test]
fn each_event() {
    for event in [
        "press",
        "release",
        "short_press",
        "double_press",
        "long_press_start",
        "long_press_repeat",
        "long_press_stop",
        "button_free",
        "button_stuck",
        "movement",
        "no_movement",
        "any_event",
    ] {
        triggers(&[(&format!("input ( 1 , 2 ) is {event}"), &format!("input_event instance 2 1 2 {event}"))]);
    }
    triggers(&[
        ("input ( 1 , 2 ) is event ( data = 0 )", "input_event instance 2 1 2 raw 0"),
        ("input ( group = 1 ) is event ( data = 1023 )", "input_event group 2 1 - raw 1023"),
    ]);
}

#[test]
fn arguments() {
    let selectors = [
        ("group = 31", "group 2 31 -"),
        ("group = 1 , group = 0 , adapter = 3", "group 3 0 -"),
        ("group = 1 , type = 31", "group 2 1 31"),
        ("type = 0 , group = 1", "group 2 1 0"),
        ("group = 1 , type = button", "group 2 1 1"),
        ("group = 1 , type = absolute", "group 2 1 2"),
        ("group = 1 , type = occupancy", "group 2 1 3"),
        ("group = 1 , type = 7 , type = light", "group 2 1 4"),
        ("1 , 2 , type = 3", "instance 2 1 2"),
        ("inst = 2 , dev = 63", "instance 2 63 2"),
        ("dev = 1 , 5 , 6", "instance 2 5 6"),
        ("5 , dev = 1 , 6 , inst = 7", "instance 2 1 7"),
        ("dev = 99 , dev = \"None\" , dev = 3 , inst = 0", "instance 2 3 0"),
        ("1 , 2 , adapter = 3", "instance 3 1 2"),
        ("\"Both\" , 2 , adapter = 2 , adapter = 3", "instance 3 2 2"),
        ("adapter = 3 , adapter = 2 , inst = 2 , \"Both\"", "instance 2 1 2"),
    ];
    for (text, selector) in selectors {
        triggers(&[(&format!("input ( {text} ) is press"), &format!("input_event {selector} press"))]);
    }
}

#[test]
fn each_condition() {
    conditions(&[
        ("controller is active", "controller_active"),
        ("timer ( \"t\" ) is running", "timer_running x74"),
        ("rule ( \"r\" ) is enabled", "rule_enabled x72"),
        ("last_fired ( \"r\" ) older than 0ms", "last_fired_older_than x72 0"),
        ("device ( 1 ) is online", "device_online 2 1"),
        ("sun is up", "sun_is up"),
        ("sun is down", "sun_is down"),
        ("time in 7:05 .. 6:00", "time_in_range clock 425 clock 360"),
        ("time in sunrise .. sunset", "time_in_range solar sunrise 0 solar sunset 0"),
        ("time in sunset - 1h .. 23:59", "time_in_range solar sunset -3600000 clock 1439"),
        ("time in 0:00 .. sunrise + 1ms", "time_in_range clock 0 solar sunrise 1"),
        ("group ( \"Group\" ) any_on", "group_state 3 15 any_on"),
        ("group ( 0 ) all_off", "group_state 2 0 all_off"),
        ("hcl is enabled for broadcast", "hcl_state broadcast 2 enabled"),
        ("hcl is overridden for lamp ( 1 )", "hcl_state lamp 2 1 overridden"),
        ("hcl is enabled for group ( \"Group\" )", "hcl_state group 3 15 enabled"),
        ("lamp ( 1 ) is on", "lamp_is 2 1 on"),
        ("lamp ( \"Lamp\" ) is off", "lamp_is 2 5 off"),
        ("lamp ( 1 ) . level == 1", "lamp_level 2 1 eq literal 1"),
        ("lamp ( 1 ) . level != 1", "lamp_level 2 1 ne literal 1"),
        ("lamp ( 1 ) . cct >= 1", "lamp_cct 2 1 ge literal 1"),
        ("lamp ( 1 ) . cct <= 1", "lamp_cct 2 1 le literal 1"),
        ("lamp ( 1 ) . cct > 1", "lamp_cct 2 1 gt literal 1"),
        ("lamp ( 1 ) . cct < 1", "lamp_cct 2 1 lt literal 1"),
        ("input ( 1 , 2 ) is occupied", "input_occupancy 2 1 2 occupied"),
        ("input ( 1 , 2 ) is vacant", "input_occupancy 2 1 2 vacant"),
        ("input ( 1 , 2 ) . light above 5", "input_light 2 1 2 above literal 5"),
        ("input ( 1 , 2 ) . light below time . hour", "input_light 2 1 2 below reading time_hour"),
        ("var ( \"v\" ) == \"\"", "var_compare x76 eq text x"),
        ("var ( \"v\" ) < \"1234567890éabcd\"", "var_compare x76 lt text x31323334353637383930c3a961626364"),
        ("var ( \"v\" ) != - 5", "var_compare x76 ne value literal -5"),
        ("var ( \"v\" ) == var ( \"w\" ) + 1", "var_compare x76 eq value offset var x77 1"),
    ]);
}

#[test]
fn each_value() {
    values(&[
        ("1000000000", "literal 1000000000"),
        ("+ 1", "literal 1"),
        ("- 1000000000", "literal -1000000000"),
        ("- 0", "literal 0"),
        ("time . now", "reading time_now"),
        ("time . now + 0", "offset time_now 0"),
        ("time . now + 1000000000", "offset time_now 1000000000"),
        ("lamp ( 1 ) . level - 1000000000", "offset lamp_level 2 1 -1000000000"),
    ]);
}

#[test]
fn each_reading() {
    values(&[
        ("lamp ( \"Lamp\" ) . level", "reading lamp_level 2 5"),
        ("lamp ( 1 , adapter = 3 ) . cct", "reading lamp_cct 3 1"),
        ("lamp ( 1 ) . is_on", "reading lamp_is_on 2 1"),
        ("lamp ( 1 ) . last_level", "reading lamp_last_level 2 1"),
        ("group ( 1 ) . any_on", "reading group_any_on 2 1"),
        ("group ( 1 ) . all_off", "reading group_all_off 2 1"),
        ("group ( \"Group\" ) . member_count", "reading group_member_count 3 15"),
        ("input ( 1 , 2 ) . occupied", "reading input_occupied 2 1 2"),
        ("input ( 1 , 2 ) . light", "reading input_light 2 1 2"),
        ("input ( \"Input\" , 2 ) . position", "reading input_position 3 9 2"),
        ("input ( dev = 1 , inst = 2 ) . last_event_age", "reading input_last_event_age 2 1 2"),
        ("time . now", "reading time_now"),
        ("time . hour", "reading time_hour"),
        ("time . minute", "reading time_minute"),
        ("time . weekday", "reading time_weekday"),
        ("sun . rise", "reading sun_rise"),
        ("sun . set", "reading sun_set"),
        ("sun . is_up", "reading sun_is_up"),
        ("event . value", "reading event_value"),
        ("event . device", "reading event_device"),
        ("event . instance", "reading event_instance"),
        ("event . option", "reading event_option"),
        ("var ( \"v\" )", "reading var x76"),
    ]);
}

#[test]
fn a_whole_text() {
    answers(
        "when http trigger when every 5s when at 7:05 when controller starts if sun is up and sun is down and lamp \
         ( 1 ) . level > time . hour and controller is active",
        "accepted 4 4\nT http_trigger\nT every 5000\nT at_time 425\nT controller_starts\nC sun_is up\nC sun_is down\n\
         C lamp_level 2 1 gt reading time_hour\nC controller_active",
    );
}
