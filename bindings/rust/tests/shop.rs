//! The shop profile: what shop staff may not write, where it is refused, and that all else is read as ever.

use tergyosul::{Party, Refusal, Rule, TOKEN_WORDS};

const SHEET: &[u8] = b"primary,0\nadapter,0\nadapter,1\nlamp,1,7,Till\nlamp,0,4,Aisle\nlamp,1,4,Aisle\ngroup,0,1,Sales floor\n\
device,0,9,Gateway\ninput,0,5,Door\n";
const ZERO: Party = Party { number: 0, primary: 0 };

/// The answers of the default call and of the shop's, which leave the same tokens.
fn both(text: &str) -> [Result<Rule, Refusal>; 2] {
    let [mut words, mut shop_words] = [[9; TOKEN_WORDS]; 2];
    let answer = tergyosul::read(text.as_bytes(), SHEET, ZERO, &mut words);
    let shop = tergyosul::read_shop(text.as_bytes(), SHEET, ZERO, &mut shop_words);
    assert_eq!(words, shop_words, "{text}");
    [answer, shop]
}

/// The number and the column of a refusal by the shop's call in the first line of a text that the default call accepts.
fn refused(text: &str) -> (u32, u32) {
    let [answer, shop] = both(text);
    assert!(answer.is_ok(), "{text}: {answer:?}");
    let r = shop.expect_err(text);
    assert_eq!((r.line, r.detail), (1, 0), "{text}");
    (r.number, r.column)
}

/// 57, at the id, in each form that refers to a lamp, a group, a device or an input device.
#[test]
fn a_number_is_refused() {
    for text in [
        "when lamp(^7, adapter=1) turns on",
        "when lamp(^7).level crosses above 5",
        "when group(^1) becomes any_on",
        "when device(^9) goes offline",
        "when hcl override starts for lamp(^7)",
        "when hcl override clears for group(^1)",
        "when input(^5, 1) is press",
        "when input(inst=3, ^5) is press",
        "when input(inst=3, dev=^5) becomes vacant",
        "when input(^5, 1).light crosses below 5",
        "when input(^5, 1).position changes",
        "when input device(^5) power cycled",
        "when input device(dev=^5, adapter=0) manual config changed",
        "when http trigger if lamp(^7) is on",
        "when http trigger if lamp(\"Till\").level > lamp(^7).level",
        "when http trigger if lamp(^7).cct == 5",
        "when http trigger if group(^1) any_on",
        "when http trigger if input(^5, 1) is occupied",
        "when http trigger if input(\"Door\", 1).light above input(^5, 1).light",
        "when http trigger if hcl is enabled for group(^1)",
        "when http trigger if device(^9) is online",
        "when http trigger if var(\"v\") == group(^1).member_count + 3",
    ] {
        let column = text.find('^').expect("a mark") as u32 + 1;
        assert_eq!(refused(&text.replace('^', "")), (57, column), "{text}");
    }
}

/// 58, at the word.
#[test]
fn broadcast_is_refused() {
    assert_eq!(refused("when hcl override starts for broadcast"), (58, 30));
    assert_eq!(refused("when http trigger if hcl is overridden for broadcast"), (58, 44));
}

/// 59, at the word `event`, in each place where a reading may stand.
#[test]
fn a_reading_of_event_is_refused() {
    for property in ["value", "device", "instance", "option"] {
        for front in ["lamp(\"Till\").level > ", "lamp(\"Till\").cct != ", "input(\"Door\", 1).light below ", "var(\"v\") == "] {
            for behind in ["", " + 5", " and sun is up"] {
                let text = format!("when http trigger if {front}event.{property}{behind}");
                assert_eq!(refused(&text), (59, 22 + front.len() as u32), "{text}");
            }
        }
    }
}

/// Numbers that refer to none of the four, and the event of a trigger.
#[test]
fn what_is_named_is_accepted() {
    for text in [
        "when lamp(\"Till\") turns on when lamp(\"Aisle\", adapter=1) turns off",
        "when scene(3) recalled when scene(3, adapter=1) recalled",
        "when input(group=2) is press when input(group=2, type=1, adapter=1) is release",
        "when input(\"Door\", 3) is event(data=5) when input(\"Door\", 3) is any_event",
        "when lamp(\"Till\").level crosses above 5 when input(\"Door\", 2).light crosses below 300",
        "when input device(\"Door\") power cycled when hcl override starts for group(\"Sales floor\")",
        "when at 7:05 if lamp(\"Till\").level == -5 and var(\"event\") == 3 and var(\"broadcast\") == \"57\"",
        "when mqtt \"event\" when timer(\"broadcast\") fires if time in 7:05..sunset + 5m",
    ] {
        let [answer, shop] = both(text);
        assert!(answer.is_ok(), "{text}: {answer:?}");
        assert_eq!(answer, shop, "{text}");
    }
}

/// Across triggers and conditions, whatever the numbers.
#[test]
fn the_earliest_place_decides() {
    assert_eq!(refused("when http trigger if lamp(3).level > event.value"), (57, 27));
    assert_eq!(refused("when http trigger if var(\"v\") == event.value and lamp(3) is on"), (59, 34));
    assert_eq!(refused("when hcl override starts for broadcast if lamp(3) is on"), (58, 30));
    assert_eq!(refused("when lamp(\"Till\") turns on when device(3) goes offline when lamp(4) turns on"), (57, 40));
    assert_eq!(refused("when http trigger if var(\"v\") == event.value and hcl is enabled for broadcast"), (59, 34));
}

/// The profile is judged on an accepted reading: what the default call refuses is refused alike.
#[test]
fn any_other_refusal_comes_first() {
    for (text, number) in [
        ("when lamp(3) turns on foo", 41),
        ("when lamp(3) turns on @", 10),
        ("when lamp(64) turns on", 22),
        ("when lamp(3, adapter=9) turns on", 25),
        ("when input(3, dev=\"Door\", inst=1) is press", 63),
        ("when input(3, group=2) is press", 27),
        ("when hcl override starts for broadcast if lamp(\"Aisle\") is on", 34),
        ("when http trigger if var(\"v\") == event.nothing", 21),
        ("when lamp(3) turns on if lamp(\"Tills\") is on", 31),
    ] {
        let [answer, shop] = both(text);
        assert_eq!(answer.map_err(|r| r.number), Err(number), "{text}");
        assert_eq!(answer, shop, "{text}");
    }
}

/// A party's names are its own, and its primary adapter is asked for first; topics count as ever.
#[test]
fn parties_and_topics() {
    let sheet = b"primary,0\nparty,7,3\nlamp,7,5,Oven\nlamp,0,5,Oven\n";
    let mut words = [9; TOKEN_WORDS];
    let bakery = Party { number: 3, primary: 7 };
    let named = tergyosul::read_shop(b"when lamp(\"Oven\") turns on", sheet, bakery, &mut words);
    assert_eq!(named, tergyosul::read(b"when lamp(5) turns on", sheet, bakery, &mut words));
    let mut number = |text: &str, call: tergyosul::Call| tergyosul::read_shop(text.as_bytes(), sheet, call, &mut words).map_err(|r| r.number);
    assert_eq!(number("when lamp(5) turns on", bakery.into()), Err(57));
    assert_eq!(number("when lamp(5) turns on", Party { primary: 0, ..bakery }.into()), Err(53));
    assert_eq!(number("when mqtt \"a\" when lamp(5) turns on", bakery.with_topics(b"1\n2\n3\n4\n5\n6\n7\n8")), Err(66));
}

#[test]
fn what_is_said_of_it() {
    let shown = |text: &str| both(text)[1].unwrap_err().to_string();
    assert_eq!(shown("when lamp(7) turns on"), "1:11: the shop profile takes a name here, no number (refusal 57)");
    assert_eq!(shown("when hcl override starts for broadcast"), "1:30: the shop profile has no broadcast (refusal 58)");
    let event = "when http trigger if var(\"v\") == event.value";
    assert_eq!(shown(event), "1:34: the shop profile has no reading of event (refusal 59)");
}
