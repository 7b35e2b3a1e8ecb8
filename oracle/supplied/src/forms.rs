//! Tests on every form of the grammar and on its near neighbours: that each is shown as the replay format orders, that
//! no neighbour stops the run, and that each row of the table of messages is met.

use crate::sheet::{Names, Sheet};
use crate::{answer, left_out, lexer, messages, parser, topics, Cursor};
use dali2rust_rules_model::RuleSet;
use std::collections::BTreeSet;

/// Of each kind: one name on adapter 1, one on both adapters, one twice on adapter 0.
fn sheet() -> String {
    let mut sheet = String::from("primary,3\nadapter,0\nadapter,1\n");
    for kind in ["lamp", "group", "device", "input"] {
        for row in ["1,7,Till", "0,4,Aisle", "1,4,Aisle", "0,5,Twin", "0,5,Twin"] {
            sheet += &format!("{kind},{row}\n");
        }
    }
    sheet
}

/// A trigger with its tokens parted by spaces, and its line.
const TRIGGERS: &[(&str, &str)] = &[
    ("timer ( \"a\" ) fires", "timer_fires x61"),
    ("rule ( \"b\" ) fails", "rule_fails x62"),
    ("controller starts", "controller_starts"),
    ("controller becomes active", "controller_becomes_active"),
    ("http trigger", "http_trigger"),
    ("mqtt \"a\"", "mqtt x61"),
    ("every 1s", "every 1000"),
    ("at 7:05", "at_time 425"),
    ("at sunrise", "at_solar sunrise 0"),
    ("at sunset - 1.5s", "at_solar sunset -1500"),
    ("at sunset + 2m", "at_solar sunset 120000"),
    ("scene ( 15 ) recalled", "scene_recalled 3 15"),
    ("scene ( 2 , adapter = 1 ) recalled", "scene_recalled 1 2"),
    ("device ( 63 ) goes offline", "device_online 3 63 goes_offline"),
    ("device ( \"Till\" ) comes online", "device_online 1 7 comes_online"),
    ("group ( 15 , adapter = 0 ) becomes any_on", "group_becomes 0 15 any_on"),
    ("group ( \"Aisle\" , adapter = 1 ) becomes all_off", "group_becomes 1 4 all_off"),
    ("hcl override starts for lamp ( 1 )", "hcl_override lamp 3 1 starts"),
    ("hcl override clears for group ( \"Till\" )", "hcl_override group 1 7 clears"),
    ("hcl override clears for broadcast", "hcl_override broadcast 3 clears"),
    ("lamp ( 63 ) turns on", "lamp_turns 3 63 on"),
    ("lamp ( \"Till\" , adapter = 1 ) turns off", "lamp_turns 1 7 off"),
    ("lamp ( 0 ) . level crosses above 254", "lamp_level_cross 3 0 above 254"),
    ("lamp ( 0 ) . level crosses below 0", "lamp_level_cross 3 0 below 0"),
    ("input device ( dev = \"Till\" ) power cycled", "input_device_power_cycled 1 7"),
    ("input device ( 5 , adapter = 0 ) manual config changed", "input_device_manual_config_changed 0 5"),
    ("input ( 5 , 31 ) is press", "input_event instance 3 5 31 press"),
    ("input ( inst = 1 , 5 ) is release", "input_event instance 3 5 1 release"),
    ("input ( dev = \"Till\" , inst = 2 ) is short_press", "input_event instance 1 7 2 short_press"),
    ("input ( adapter = 0 , 5 , 2 , type = 9 ) is double_press", "input_event instance 0 5 2 double_press"),
    ("input ( group = 31 ) is long_press_start", "input_event group 3 31 - long_press_start"),
    ("input ( group = 1 , type = button ) is long_press_repeat", "input_event group 3 1 1 long_press_repeat"),
    ("input ( group = 1 , type = absolute ) is long_press_stop", "input_event group 3 1 2 long_press_stop"),
    ("input ( group = 1 , type = occupancy ) is button_free", "input_event group 3 1 3 button_free"),
    ("input ( group = 1 , type = light ) is button_stuck", "input_event group 3 1 4 button_stuck"),
    ("input ( group = 1 , type = 31 ) is movement", "input_event group 3 1 31 movement"),
    ("input ( group = 1 , adapter = 1 ) is no_movement", "input_event group 1 1 - no_movement"),
    ("input ( 1 , 2 ) is any_event", "input_event instance 3 1 2 any_event"),
    ("input ( 1 , 2 ) is event ( data = 1023 )", "input_event instance 3 1 2 raw 1023"),
    ("input ( 1 , 2 ) becomes occupied", "input_occupancy 3 1 2 occupied"),
    ("input ( 1 , 2 ) becomes vacant", "input_occupancy 3 1 2 vacant"),
    ("input ( 1 , 2 ) . light crosses above 1023", "input_light_cross 3 1 2 above 1023"),
    ("input ( 1 , 2 ) . light crosses below 7", "input_light_cross 3 1 2 below 7"),
    ("input ( 1 , 2 ) . position changes", "input_position_change 3 1 2"),
];

/// The same for conditions.
const CONDITIONS: &[(&str, &str)] = &[
    ("controller is active", "controller_active"),
    ("timer ( \"a\" ) is running", "timer_running x61"),
    ("rule ( \"a\" ) is enabled", "rule_enabled x61"),
    ("last_fired ( \"a\" ) older than 5ms", "last_fired_older_than x61 5"),
    ("device ( 1 , adapter = 0 ) is online", "device_online 0 1"),
    ("sun is up", "sun_is up"),
    ("sun is down", "sun_is down"),
    ("time in 0:00 .. sunrise", "time_in_range clock 0 solar sunrise 0"),
    ("time in sunset - 1s .. 23:59", "time_in_range solar sunset -1000 clock 1439"),
    ("group ( 1 ) any_on", "group_state 3 1 any_on"),
    ("group ( \"Till\" ) all_off", "group_state 1 7 all_off"),
    ("hcl is enabled for broadcast", "hcl_state broadcast 3 enabled"),
    ("hcl is overridden for lamp ( 2 )", "hcl_state lamp 3 2 overridden"),
    ("lamp ( 1 ) is on", "lamp_is 3 1 on"),
    ("lamp ( 1 ) is off", "lamp_is 3 1 off"),
    ("lamp ( 1 ) . level == 5", "lamp_level 3 1 eq literal 5"),
    ("lamp ( 1 ) . cct != - 5", "lamp_cct 3 1 ne literal -5"),
    ("input ( 1 , 2 ) is occupied", "input_occupancy 3 1 2 occupied"),
    ("input ( 1 , 2 ) is vacant", "input_occupancy 3 1 2 vacant"),
    ("input ( 1 , 2 ) . light above + 5", "input_light 3 1 2 above literal 5"),
    ("input ( 1 , 2 ) . light below 5", "input_light 3 1 2 below literal 5"),
    ("var ( \"a\" ) >= \"text\"", "var_compare x61 ge text x74657874"),
    ("var ( \"a\" ) <= lamp ( 1 ) . level", "var_compare x61 le value reading lamp_level 3 1"),
    ("var ( \"a\" ) > lamp ( 1 ) . cct + 5", "var_compare x61 gt value offset lamp_cct 3 1 5"),
    ("var ( \"a\" ) < lamp ( 1 ) . is_on - 5", "var_compare x61 lt value offset lamp_is_on 3 1 -5"),
    ("var ( \"a\" ) == lamp ( 1 ) . last_level", "var_compare x61 eq value reading lamp_last_level 3 1"),
    ("var ( \"a\" ) == group ( 1 ) . any_on", "var_compare x61 eq value reading group_any_on 3 1"),
    ("var ( \"a\" ) == group ( 1 ) . all_off", "var_compare x61 eq value reading group_all_off 3 1"),
    ("var ( \"a\" ) == group ( 1 ) . member_count", "var_compare x61 eq value reading group_member_count 3 1"),
    ("var ( \"a\" ) == input ( 1 , 2 ) . occupied", "var_compare x61 eq value reading input_occupied 3 1 2"),
    ("var ( \"a\" ) == input ( 1 , 2 ) . light", "var_compare x61 eq value reading input_light 3 1 2"),
    ("var ( \"a\" ) == input ( 1 , 2 ) . position", "var_compare x61 eq value reading input_position 3 1 2"),
    (
        "var ( \"a\" ) == input ( 1 , 2 ) . last_event_age",
        "var_compare x61 eq value reading input_last_event_age 3 1 2",
    ),
    ("var ( \"a\" ) == time . now", "var_compare x61 eq value reading time_now"),
    ("var ( \"a\" ) == time . hour", "var_compare x61 eq value reading time_hour"),
    ("var ( \"a\" ) == time . minute", "var_compare x61 eq value reading time_minute"),
    ("var ( \"a\" ) == time . weekday", "var_compare x61 eq value reading time_weekday"),
    ("var ( \"a\" ) == sun . rise", "var_compare x61 eq value reading sun_rise"),
    ("var ( \"a\" ) == sun . set", "var_compare x61 eq value reading sun_set"),
    ("var ( \"a\" ) == sun . is_up", "var_compare x61 eq value reading sun_is_up"),
    ("var ( \"a\" ) == event . value", "var_compare x61 eq value reading event_value"),
    ("var ( \"a\" ) == event . device", "var_compare x61 eq value reading event_device"),
    ("var ( \"a\" ) == event . instance", "var_compare x61 eq value reading event_instance"),
    ("var ( \"a\" ) == event . option", "var_compare x61 eq value reading event_option"),
    ("var ( \"a\" ) == var ( \"b\" ) + 1", "var_compare x61 eq value offset var x62 1"),
];

/// What takes a token's place, or is put before it, in the neighbours of a form.
const OTHERS: &[&str] = &[
    "foo", "dev", "inst", "group", "device", "lamp", "input", "on", "day", "mqtt", "when", "if", "and", "at", "is",
    "7:05", "5", "99", "300", "2000", "1000000000", "1ms", "4294967.295s", "0.5", "\"\"", "\"Till\"", "\"Aisle\"",
    "\"Twin\"", "\"Nobody\"", "\"0123456789012345678901234567890123456789012345678\"", "(", ")", "=", "==", ",", ".",
    "..", "+", "-", ", adapter = 0", ", adapter = 9", "@", "!", "\"", "1000000001", "24:00", "0.00001", "5x",
    "0.0001s", "1194h", "'",
];

/// Eight topics that are lent with every text; `a` is none of them, `Till` is one.
const LENT: &str = "1\n2\n3\n4\n5\n6\n7\nTill\n";

/// The text without lent topics and with eight.
fn cases(text: &str) -> [cases::Case; 2] {
    ["", LENT].map(|lent| cases::Case::new(0, cases::LEAST_WORDS, text, sheet()).with_topics(lent))
}

/// Every form as a text.
fn texts() -> impl Iterator<Item = String> {
    let triggers = TRIGGERS.iter().map(|(form, _)| format!("when {form}"));
    triggers.chain(CONDITIONS.iter().map(|(form, _)| format!("when http trigger if {form}")))
}

/// The text cut short, and with one token left out, replaced or put in, at each place.
fn neighbours(text: &str) -> Vec<String> {
    let words: Vec<&str> = text.split(' ').collect();
    let mut all = Vec::new();
    for at in 0..=words.len() {
        let (before, after) = (words[..at].join(" "), words[at..].join(" "));
        let behind = words.get(at + 1..).unwrap_or_default().join(" ");
        all.push(before.clone());
        all.push(format!("{before} {behind}"));
        for other in OTHERS {
            all.push(format!("{before} {other} {behind}"));
            all.push(format!("{before} {other} {after}"));
        }
    }
    all
}

/// The message that the supplied Rust refuses a text with, unless it comes to a form in which it is not compared.
fn message(text: &str, names: &Names, earlier: &RuleSet) -> Option<String> {
    let lexed = match lexer::lex(text) {
        Ok(lexed) => lexed,
        Err(error) => return Some(error.message),
    };
    if left_out::first_reached(&lexed, names, earlier).is_some() {
        return None;
    }
    parser::action::sections(&mut Cursor::new(lexed, names), earlier).err().map(|error| error.message)
}

#[test]
fn each_form_is_shown() {
    let said = |text: String| answer(&cases(&text)[0]);
    for (form, line) in TRIGGERS {
        let said = said(format!("when {form}"));
        assert!(said.ends_with(&format!("buffer kept\naccepted 1 0\nT {line}\n")), "{form}: {said}");
    }
    for (form, line) in CONDITIONS {
        let said = said(format!("when http trigger if {form}"));
        assert!(said.ends_with(&format!("buffer kept\naccepted 1 1\nT http_trigger\nC {line}\n")), "{form}: {said}");
    }
}

#[test]
fn no_neighbour_stops_the_run() {
    for text in texts().flat_map(|text| neighbours(&text)) {
        for case in cases(&text) {
            let said = answer(&case);
            let days = said == "case 0\noutside the domain\n" && (text.contains(" on") || text.contains(" day"));
            assert!(said.contains("\naccepted ") || said.contains("\nrefused ") || days, "{text}: {said}");
        }
    }
}

#[test]
fn each_row_of_the_table_is_met() {
    let names = Sheet::read(sheet().as_bytes()).ok().and_then(|sheet| sheet.names_for(0, 3)).expect("the sheet is well formed");
    let five_triggers = "when http trigger ".repeat(5);
    let five_conditions = format!("when http trigger if sun is up {}", "and sun is up ".repeat(4));
    let one_instance = "when http trigger if input ( group = 1 ) is occupied".to_owned();
    let more = [five_triggers, five_conditions, one_instance];
    let all = texts().flat_map(|text| neighbours(&text)).chain(more);
    let earlier = topics::earlier(LENT.as_bytes()).expect("the topics are UTF-8");
    let said: BTreeSet<String> = all.filter_map(|text| message(&text, &names, &earlier)).collect();
    assert_eq!(messages::unmet(&said), [""; 0]);
}
