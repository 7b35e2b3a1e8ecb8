//! Each refusal's number, with its place and detail, and the order of the questions.

mod common;
use cases::Case;
use common::*;

#[test]
fn n01_to_04_and_their_order() {
    let text = |bytes: usize| vec![b' '; bytes];
    let bad = Case::new(1, 0, text(16_385), []);
    assert_eq!(verdict_of(&bad), "refused 1 0 0 0");
    let bad = Case { text: vec![0xFF; 16_384], ..bad };
    assert_eq!(verdict_of(&bad), "refused 2 0 0 0");
    assert_eq!(verdict_of(&Case { words: 5_119, ..bad.clone() }), "refused 2 0 0 0");
    let bad = Case { words: 5_120, ..bad };
    assert_eq!(verdict_of(&bad), "refused 3 1 0 0");
    let bad = Case { sheet: b"primary,0".to_vec(), ..bad };
    assert_eq!(verdict_of(&bad), "refused 4 1 1 0");
    assert_eq!(verdict_of(&case(&text(16_384), b"primary,0")), "refused 38 1 16385 0");
}

#[test]
fn n03_bad_lines() {
    let line = |sheet: &str| verdict_with("", sheet);
    for (sheet, bad) in [
        ("", 1),
        ("\n", 1),
        ("\nprimary,0", 1),
        ("adapter,0", 1),
        ("primary,256", 1),
        ("primary,", 1),
        ("primary,00", 1),
        ("primary,0,", 1),
        ("primary,+1", 1),
        (" primary,1", 1),
        ("primary,0\n\n", 2),
        ("primary,0\nprimary,0", 2),
        ("primary,0\nadapter,01", 2),
        ("primary,0\nadapter,0,0", 2),
        ("primary,0\nadapter,0\nlamp,0,64,a", 3),
        ("primary,0\nadapter,0\ngroup,0,16,a", 3),
        ("primary,0\nadapter,0\nlamp,0,0,", 3),
        ("primary,0\nadapter,0\nlamp,0,0,a\rb", 3),
        ("primary,0\nadapter,0\nlamp,256,0,a", 3),
        ("primary,0\nadapter,0\nscene,0,0,a", 3),
        ("primary,0\nadapter,0\nlamp,0,0", 3),
    ] {
        assert_eq!(line(sheet), format!("refused 3 {bad} 0 0"), "{sheet:?}");
    }
    let name = "n".repeat(48);
    assert_eq!(line(&format!("primary,0\nlamp,255,63,{name}\ngroup,0,15,g\n")), "refused 38 1 1 0");
    assert_eq!(line(&format!("primary,0\nlamp,0,0,{name}n")), "refused 3 2 0 0");
}

#[test]
fn n03_length_and_rows() {
    let rows = |count: usize| "primary,0".to_string() + &"\nadapter,7".repeat(count);
    assert_eq!(verdict_with("", &rows(512)), "refused 38 1 1 0");
    assert_eq!(verdict_with("", &(rows(512) + "\n")), "refused 38 1 1 0");
    assert_eq!(verdict_with("", &(rows(512) + "\n\n")), "refused 3 514 0 0");
    assert_eq!(verdict_with("", &rows(513)), "refused 3 514 0 0");
    assert_eq!(verdict_with("", &rows(600)), "refused 3 514 0 0");
    assert_eq!(verdict_with("", &rows(600).replacen("adapter,7", "adapter,", 1)), "refused 3 2 0 0");
    assert_eq!(verdict_with("", &"x".repeat(16_385)), "refused 3 0 0 0");
    assert_eq!(verdict_with("", &"x".repeat(16_384)), "refused 3 1 0 0");
}

#[test]
fn n04_places() {
    let at = |text: &[u8]| verdict_of(&case(text, b"primary,0"));
    assert_eq!(at(b"a\xC3\xA9\n\xE2\x82\xAC \xE2\x82"), "refused 4 2 3 0");
    assert_eq!(at(b"@\xED\xA0\x80"), "refused 4 1 2 0");
    assert_eq!(at(b"\xF4\x90\x80\x80"), "refused 4 1 1 0");
    assert_eq!(at(b"\xC0\xAF"), "refused 4 1 1 0");
    assert_eq!(at(b"# \x80"), "refused 4 1 3 0");
}

#[test]
fn n10_to_19_in_lexing() {
    refused(&[
        ("when é", "10 1 6 0"),
        ("when ! =", "10 1 6 0"),
        ("a != !", "10 1 6 0"),
        ("5.5:30", "10 1 4 0"),
        ("when \"é\n\"", "11 1 6 0"),
        ("\n \"abc", "11 2 2 0"),
        ("when 1000000001", "12 1 6 0"),
        ("429496.7296", "12 1 1 0"),
        ("1000000000.0", "12 1 1 0"),
        ("24:00", "13 1 1 0"),
        ("0.00000", "15 1 1 0"),
        ("429497.00000", "15 1 1 0"),
        ("5S", "16 1 1 0"),
        ("5msx", "16 1 1 0"),
        ("1.5d", "16 1 1 0"),
        ("1194h", "17 1 1 0"),
        ("0.1ms", "18 1 1 0"),
        ("1000000000.0005s", "18 1 1 0"),
        ("when @ \"", "10 1 6 0"),
        ("foo 5x", "16 1 5 0"),
        (&"a ".repeat(1_025), "19 1 2049 0"),
    ]);
}

#[test]
fn n20_at_the_token_or_the_end() {
    refused(&[
        ("when", "20 1 5 0"),
        ("when (", "20 1 6 0"),
        ("when \"lamp\"", "20 1 6 0"),
        ("when timer \"a\"", "20 1 12 0"),
        ("when timer(a) fires", "20 1 12 0"),
        ("when timer(\"a\") fails", "20 1 17 0"),
        ("when controller clears", "20 1 17 0"),
        ("when controller becomes ready", "20 1 25 0"),
        ("when http call", "20 1 11 0"),
        ("when every 5", "20 1 12 0"),
        ("when at 5", "20 1 9 0"),
        ("when at sunset + 5", "20 1 18 0"),
        ("when scene(\"a\") recalled", "20 1 12 0"),
        ("when scene(1, foo=1) recalled", "20 1 15 0"),
        ("when scene(1, adapter==1) recalled", "20 1 22 0"),
        ("when scene(1, adapter=\"a\") recalled", "20 1 23 0"),
        ("when device(1) stays", "20 1 16 0"),
        ("when device(1) goes online", "20 1 21 0"),
        ("when group(1) any_on", "20 1 15 0"),
        ("when hcl starts", "20 1 10 0"),
        ("when hcl override starts lamp(1)", "20 1 26 0"),
        ("when hcl override starts for device(1)", "20 1 30 0"),
    ]);
}

#[test]
fn n20_in_lamp_and_input_triggers() {
    refused(&[
        ("when lamp(1) is on", "20 1 14 0"),
        ("when lamp(1).cct crosses above 1", "20 1 14 0"),
        ("when lamp(1).level crosses above -1", "20 1 34 0"),
        ("when lamp(1, adapter=2, adapter=2) turns on", "20 1 23 0"),
        ("when input device(foo=1) power cycled", "20 1 19 0"),
        ("when input device(dev 1) power cycled", "20 1 23 0"),
        ("when input device(1, inst=1) power cycled", "20 1 22 0"),
        ("when input device(1) foo", "20 1 22 0"),
        ("when input lamp(1)", "20 1 12 0"),
        ("when input(1,2) is (", "20 1 20 0"),
        ("when input(1,2).light above 1", "20 1 23 0"),
        ("when input(1 2)", "20 1 14 0"),
        ("when input(1,\"a\")", "20 1 14 0"),
        ("when input(1,2,type=\"a\")", "20 1 21 0"),
        ("when input(1,2) is event(1)", "20 1 26 0"),
    ]);
}

#[test]
fn n20_in_conditions() {
    condition_refused(&[
        ("", "20 1 22 0"),
        ("(", "20 1 22 0"),
        ("controller becomes active", "20 1 33 0"),
        ("rule(\"a\") is overridden", "20 1 35 0"),
        ("last_fired(\"a\") older than 5", "20 1 49 0"),
        ("time in 7:05", "20 1 34 0"),
        ("time in 7:05.8:00", "20 1 34 0"),
        ("lamp(1) turns", "20 1 30 0"),
        ("lamp(1).level = 1", "20 1 36 0"),
        ("lamp(1).foo == foo", "20 1 37 0"),
        ("lamp(1).level == --1", "20 1 40 0"),
        ("lamp(1).level == -lamp(1).level", "20 1 40 0"),
        ("lamp(1).level == \"a\"", "20 1 39 0"),
        ("lamp(1).level == time.hour + 1s", "20 1 51 0"),
        ("lamp(1).level == 1.5", "20 1 39 0"),
        ("input(1,2).position above 1", "20 1 33 0"),
        ("input device(1)", "20 1 28 0"),
        ("hcl is enabled for input(1,2)", "20 1 41 0"),
        ("var(\"a\") above 1", "20 1 31 0"),
        ("group(1) (", "20 1 31 0"),
    ]);
}

#[test]
fn n21_where_any_word_is_taken() {
    refused(&[
        ("when when", "21 1 6 0"),
        ("when day", "21 1 6 0"),
        ("when input(foo=1)", "21 1 12 0"),
        ("when input(1,2,type=foo)", "21 1 21 0"),
        ("when input(1,2) is foo", "21 1 20 0"),
        ("when at noon", "21 1 9 0"),
        ("when input(1,2).occupied", "21 1 17 0"),
        ("when input(1,2) becomes on", "21 1 25 0"),
        ("when input(1,2).light crosses over", "21 1 31 0"),
        ("when lamp(1) turns up", "21 1 20 0"),
        ("when lamp(1).level crosses on", "21 1 28 0"),
        ("when group(1) becomes on", "21 1 23 0"),
        ("when hcl override ends", "21 1 19 0"),
    ]);
    condition_refused(&[
        ("mqtt", "21 1 22 0"),
        ("sun is on", "21 1 29 0"),
        ("time in noon", "21 1 30 0"),
        ("time in 7:05..noon", "21 1 36 0"),
        ("group(1) becomes", "21 1 31 0"),
        ("hcl is on", "21 1 29 0"),
        ("lamp(1) is up", "21 1 33 0"),
        ("lamp(1).is_on == 1", "21 1 30 0"),
        ("input(1,2) is on", "21 1 36 0"),
        ("input(1,2).light on", "21 1 39 0"),
        ("var(\"a\") == lamp(1).foo", "21 1 42 0"),
        ("var(\"a\") == group(1).foo", "21 1 43 0"),
        ("var(\"a\") == input(1,2).foo", "21 1 45 0"),
        ("var(\"a\") == time.foo", "21 1 39 0"),
        ("var(\"a\") == sun.up", "21 1 38 0"),
        ("var(\"a\") == event.foo", "21 1 40 0"),
    ]);
}

#[test]
fn n22_to_25_at_single_tokens() {
    let long = "n".repeat(49);
    refused(&[
        ("when lamp(64) turns on", "22 1 11 0"),
        ("when device(64) goes offline", "22 1 13 0"),
        ("when group(16) becomes any_on", "22 1 12 0"),
        ("when input device(dev=64, adapter=2) power cycled", "22 1 23 0"),
        ("when input(64,0) is press", "22 1 12 0"),
        ("when input(0,32) is press", "22 1 14 0"),
        ("when input(group=32) is press", "22 1 18 0"),
        ("when lamp(1, adapter=256) turns on", "22 1 22 0"),
        ("when lamp(1).level crosses above 255", "22 1 34 0"),
        ("when input(1,2).light crosses above 1024", "22 1 37 0"),
        ("when input(1,2) is event(data=1024 foo", "22 1 31 0"),
        ("when timer(\"\" foo", "23 1 12 0"),
        ("when lamp(\"\" foo", "23 1 11 0"),
        (&format!("when rule(\"{long}\" foo"), "24 1 11 0"),
        (&format!("when lamp(\"{long}\", adapter=9) turns on"), "24 1 11 0"),
        ("when scene(1, adapter=9) foo", "25 1 23 0"),
        ("when lamp(\"None\", adapter=9) turns on", "25 1 27 0"),
    ]);
    condition_refused(&[
        ("var(\"\") == \"\"", "23 1 26 0"),
        ("var(\"a\") == \"12345678901234567\"", "24 1 34 0"),
        ("var(\"a\") == \"éééééééée\"", "24 1 34 0"),
    ]);
}

#[test]
fn n26_to_30_in_arguments() {
    refused(&[
        ("when input(1,2,3) is press", "26 1 16 0"),
        ("when input(1,inst=3,2,(", "26 1 23 0"),
        ("when input(group=1,group=2,dev=1) is press", "27 1 26 0"),
        ("when input(group=1,inst=1) is press", "27 1 18 0"),
        ("when input(group=1,dev=99) is press", "27 1 18 0"),
        ("when input(group=1,dev=1", "20 1 25 0"),
        ("when input(inst=1) is press", "28 1 18 0"),
        ("when input(type=1) is press", "28 1 18 0"),
        ("when input(dev=99) is press", "29 1 18 0"),
        ("when input(\"None\") is press", "29 1 18 0"),
        ("when input (group=1).light crosses above 1", "30 1 12 0"),
    ]);
    condition_refused(&[
        ("input(group=1, dev=1).light above 1", "27 1 34 0"),
        ("input(1,2).light above input(group=3).light", "30 1 50 0"),
    ]);
}

#[test]
fn n31_to_34_of_names() {
    refused(&[
        ("when lamp(\"Group\") turns on", "31 1 11 0"),
        ("when lamp(\"lamp\") turns on", "31 1 11 0"),
        ("when group(\"Group\", adapter=2) becomes any_on", "32 1 12 3"),
        ("when lamp(\"Twice\") turns on", "33 1 11 2"),
        ("when lamp(\"Twice\", adapter=3) turns on", "32 1 11 2"),
        ("when lamp(\"Twice\") foo", "33 1 11 2"),
        ("when lamp(\"Twice\" foo", "20 1 19 0"),
        ("when input(\"Both\", 1) is press", "34 1 12 2"),
        ("when input(\"Both\", 1, adapter=3, adapter=2, inst=3, 4, 5", "26 1 53 0"),
        ("when input device(\"Both\") power cycled", "34 1 19 2"),
        ("when device(\"Input\") goes offline", "31 1 13 0"),
    ]);
    let sheet = "primary,0\nlamp,9,1,a\nlamp,8,1,a\nlamp,9,2,a\nadapter,9\nadapter,7";
    assert_eq!(verdict_with("when lamp(\"a\") turns on", sheet), "refused 34 1 11 3");
    assert_eq!(verdict_with("when lamp(\"a\", adapter=9) turns on", sheet), "refused 33 1 11 2");
    assert_eq!(verdict_with("when lamp(\"a\", adapter=7) turns on", sheet), "refused 32 1 11 9");
    assert_eq!(verdict_with("when lamp(\"a\", adapter=8) turns on", sheet), "refused 25 1 24 0");
}

#[test]
fn n35_and_36_at_the_duration() {
    refused(&[
        ("when every 999ms foo", "35 1 12 0"),
        ("when at sunrise + 600h", "36 1 19 0"),
        ("when at sunrise - 2147483.649s", "36 1 19 0"),
    ]);
    condition_refused(&[("time in sunset + 600h..7:05", "36 1 39 0")]);
}

#[test]
fn n37_to_41_of_sections() {
    let whens = "when http trigger ".repeat(4);
    let four = "if controller is active".to_string() + &" and controller is active".repeat(3);
    refused(&[
        (&format!("{whens}when ("), "37 1 73 0"),
        ("if controller is active", "38 1 1 0"),
        ("\n when", "20 2 6 0"),
        (&format!("when http trigger {four} and ("), "39 1 118 0"),
        ("when mqtt \"a\" is foo", "40 1 15 0"),
        ("when http trigger )", "41 1 19 0"),
        ("when http trigger then", "41 1 19 0"),
        ("when http trigger and controller is active", "41 1 19 0"),
        ("when http trigger if controller is active when http trigger", "41 1 43 0"),
        ("when http trigger if controller is active if", "41 1 43 0"),
    ]);
    condition_refused(&[("lamp(1).level == 1 + 1", "41 1 41 0")]);
    last_record(&[(&whens, "T http_trigger"), (&format!("{whens} {four}"), "C controller_active")]);
}

#[test]
fn the_domain() {
    let in_domain = |text: &[u8], sheet: &str| second::in_domain(&case(text, sheet.as_bytes()));
    assert!(in_domain(b"when http trigger", ALL));
    assert!(in_domain(b"when foo", ALL));
    assert!(in_domain(b"@", ALL));
    assert!(in_domain(b"1194h", ALL));
    assert!(!in_domain(b"1194.0000000000h", ALL));
    assert!(!in_domain(b"when http trigger", ""));
    assert!(!in_domain(b"\xFF", ALL));
    assert!(!in_domain(&[b' '; 16_385], ALL));
    assert!(!in_domain(b"when mqtt \"a\" is", ALL));
    assert!(!second::in_domain(&Case { words: 5_119, ..case(b"when http trigger", ALL.as_bytes()) }));
}
