//! Rules written out: what is written for each form, what is refused and at which entry, and that it reads back.

use tergyosul::{join, read, write, Party, Refusal, ANSWER_WORDS, LEAST_BYTES, TOKEN_WORDS};

const SHEET: &[u8] = b"primary,0\nadapter,0\nadapter,1\nadapter,255\nadapter,7\nparty,7,3\nlamp,1,7,Till\nlamp,2,7,Far\n";
const ZERO: Party = Party { number: 0, primary: 0 };

/// The text that is written for a rule.
fn written(text: &str) -> String {
    written_for(text, ZERO)
}

fn written_for(text: &str, party: Party) -> String {
    let rule = read(text.as_bytes(), SHEET, party, &mut [0; TOKEN_WORDS]).unwrap_or_else(|refusal| panic!("{text}: {refusal}"));
    rule.written(text.as_bytes(), SHEET, party).unwrap_or_else(|refusal| panic!("{text}: {refusal}")).to_string()
}

/// The words of a rule, to be changed.
fn words(text: &str) -> [u32; ANSWER_WORDS] {
    *read(text.as_bytes(), SHEET, ZERO, &mut [0; TOKEN_WORDS]).expect(text).words()
}

/// The number and the entry with which lists are refused whose names stand in these texts.
fn refused(words: &[u32], texts: [&str; 2], party: Party) -> (u32, u32) {
    let mut out = [9; LEAST_BYTES];
    let Refusal { number, line, column, detail } = write(words, texts.map(str::as_bytes), SHEET, party, &mut out).unwrap_err();
    assert_eq!((column, detail), (0, 0));
    assert!(out.iter().all(|&byte| byte == 9));
    (number, line)
}

/// One space between tokens, whatever the layout; comments are left out.
#[test]
fn one_space_between_tokens() {
    assert_eq!(written("when\tlamp(3)turns on # now\n if lamp(1).level==-5"), "when lamp ( 3 ) turns on if lamp ( 1 ) . level == - 5");
    assert_eq!(written("when http trigger if time in 7:05..sunset"), "when http trigger if time in 07:05 .. sunset");
}

/// Names of the sheet are numbers, with their adapter where it is not the primary.
#[test]
fn references_are_numbers() {
    assert_eq!(written("when lamp(\"Till\") turns on"), "when lamp ( 7 , adapter = 1 ) turns on");
    assert_eq!(written("when lamp(7, adapter=0) turns on"), "when lamp ( 7 ) turns on");
    assert_eq!(written_for("when lamp(\"Till\") turns on", Party { number: 0, primary: 1 }), "when lamp ( 7 ) turns on");
    assert_eq!(written_for("when scene(3) recalled", Party { number: 3, primary: 7 }), "when scene ( 3 ) recalled");
    assert_eq!(written("when scene(3, adapter=255) recalled"), "when scene ( 3 , adapter = 255 ) recalled");
}

/// Arguments of `input` have their names, in one order; a type is a number.
#[test]
fn arguments_are_named() {
    for (text, expected) in [
        ("when input(1, 2) is press", "when input ( dev = 1 , inst = 2 ) is press"),
        ("when input(adapter=1, inst=2, dev=3) is press", "when input ( dev = 3 , inst = 2 , adapter = 1 ) is press"),
        ("when input(group=5) is any_event", "when input ( group = 5 ) is any_event"),
        (
            "when input(adapter=1, type=light, group=5) is event(data=7)",
            "when input ( group = 5 , type = 4 , adapter = 1 ) is event ( data = 7 )",
        ),
        ("when input device(5) manual config changed", "when input device ( dev = 5 ) manual config changed"),
        ("when http trigger if input(1, 2).light above 5", "when http trigger if input ( dev = 1 , inst = 2 ) . light above 5"),
    ] {
        assert_eq!(written(text), expected);
    }
}

#[test]
fn numbers_times_and_days() {
    for (text, expected) in [
        ("when every 1h", "when every 3600000ms"),
        ("when every 1000000s", "when every 1000000000ms"),
        ("when every 1000000.001s", "when every 1000000.001s"),
        ("when every 4294967.295s", "when every 4294967.295s"),
        ("when at 7:05", "when at 07:05"),
        ("when at 0:00 on tue..mon", "when at 00:00"),
        ("when at 23:59 on sun, mon", "when at 23:59 on mon , sun"),
        ("when at sunrise - 0s", "when at sunrise"),
        ("when at sunset - 2147483.648s on fri", "when at sunset - 2147483.648s on fri"),
        ("when http trigger if day in sat..fri", "when http trigger if day in mon , tue , wed , thu , fri , sat , sun"),
        ("when http trigger if var(\"v\") == -0", "when http trigger if var ( \"v\" ) == 0"),
        ("when http trigger if var(\"v\") < sun.rise", "when http trigger if var ( \"v\" ) < sun . rise"),
        ("when http trigger if var(\"v\") < sun.rise - 0", "when http trigger if var ( \"v\" ) < sun . rise + 0"),
        ("when http trigger if var(\"v\") < sun.rise-01", "when http trigger if var ( \"v\" ) < sun . rise - 1"),
        ("when http trigger if var(\"v\") == \"\"", "when http trigger if var ( \"v\" ) == \"\""),
    ] {
        assert_eq!(written(text), expected);
    }
}

/// The names of two joined rules are taken from both texts, and come as they are, between quotes.
#[test]
fn two_joined() {
    let [first, second] = ["when timer(\"Käse # 1\") fires if timer(\"n\") is running", "when rule(\"b\") fails if timer(\"n\") is running"];
    let [mut others, mut words] = [[0; TOKEN_WORDS]; 2];
    let [one, two] = [first, second].map(str::as_bytes);
    let joined = join(one, two, SHEET, ZERO, &mut words, &mut others).expect("they are joined");
    let text = joined.written(one, two, SHEET, ZERO).expect("it is written");
    assert_eq!(&*text, "when timer ( \"Käse # 1\" ) fires when rule ( \"b\" ) fails if timer ( \"n\" ) is running");
    assert_eq!((format!("{text:?}"), format!("{text:>9.4}")), (format!("Written({:?})", text.as_str()), "     when".to_string()));
    // In the wrong order the second trigger's name is cut off.
    assert_eq!(joined.written(one, b"", SHEET, ZERO).map_err(|r| (r.number, r.line)), Err((55, 2)));
}

/// 55 for counts, and for the first entry that no text gives, before 56 for one that the call cannot name.
#[test]
fn what_is_refused() {
    let text = "when lamp(7, adapter=1) turns on when timer(\"Close\") fires if hcl is enabled for broadcast";
    let lists = words(text);
    for (changes, expected) in [
        (&[(4, 0)][..], (55, 0)),
        (&[(4, 5)], (55, 0)),
        (&[(5, 5)], (55, 0)),
        (&[(4, 3)], (55, 3)),
        (&[(7, 3)], (55, 1)),
        (&[(8, 2)], (55, 2)),
        (&[(11, 3)], (55, 3)),
        (&[(12, 22)], (55, 1)),
        (&[(14, 64)], (55, 1)),
        (&[(16, 1)], (55, 1)),
        (&[(25, u32::MAX)], (55, 2)),
        (&[(26, 49)], (55, 2)),
        (&[(13, 2)], (56, 1)),
        (&[(13, 7)], (56, 1)),
        (&[(62, 1)], (56, 3)),
        (&[(13, 2), (64, 3)], (55, 3)),
        (&[(13, 256)], (55, 1)),
    ] {
        let mut changed = lists;
        changes.iter().for_each(|&(at, word)| changed[at] = word);
        assert_eq!(refused(&changed, [text, ""], ZERO), expected, "{changes:?}");
    }
    let bakery = Party { number: 3, primary: 0 };
    assert_eq!(refused(&lists, [text, ""], bakery), (53, 0));
    assert_eq!(write(&lists, [text.as_bytes(), b""], b"", bakery, &mut []).map_err(|r| (r.number, r.line)), Err((3, 1)));
    assert_eq!(write(&lists, [text.as_bytes(), b""], SHEET, ZERO, &mut [9; LEAST_BYTES - 1]).map_err(|r| r.number), Err(54));
}

/// Words that nothing says are not looked at: rows past a count, and the rest of row 0.
#[test]
fn what_is_not_looked_at() {
    let text = "when timer(\"Close\") fires";
    let mut lists = words(text);
    lists[24..].fill(99);
    [0, 1, 2, 3, 6, 8, 9, 10, 11].iter().for_each(|&at| lists[at] = 77);
    let mut out = [9; LEAST_BYTES];
    assert_eq!(write(&lists, [text.as_bytes(), b""], SHEET, ZERO, &mut out), Ok("when timer ( \"Close\" ) fires"));
    lists[7] = 2;
    assert_eq!(write(&lists, [b"", text.as_bytes()], SHEET, ZERO, &mut out), Ok("when timer ( \"Close\" ) fires"));
}

/// A lamp that is named on an adapter that is not listed is read, and has no text by its number.
#[test]
fn a_name_on_an_adapter_that_is_not_listed() {
    let text = b"when lamp(\"Far\") turns on";
    let rule = read(text, SHEET, ZERO, &mut [0; TOKEN_WORDS]).expect("it has a row");
    let refusal = rule.written(text, SHEET, ZERO).unwrap_err();
    assert_eq!(refusal.to_string(), "entry 1: an adapter is not listed, or broadcast is not on the primary one (refusal 56)");
    assert_eq!(written_for("when lamp(\"Far\") turns on", Party { number: 0, primary: 2 }), "when lamp ( 7 ) turns on");
}
