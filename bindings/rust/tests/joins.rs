//! Two rules joined: which entries are left and of which text, what is refused and of which text, and what is left in the
//! words of both.

#[allow(dead_code)] // only joined rules are shown here
mod shown;

use tergyosul::{tokens, JoinRefusal, Joined, Party, Refusal, Text, Trigger, TOKEN_WORDS};

const SHEET: &[u8] = b"primary,0\nadapter,0\nadapter,1\nadapter,7\nparty,7,3\nlamp,1,7,Till\nlamp,0,4,Aisle\nlamp,1,4,Aisle\n";
const ZERO: Party = Party { number: 0, primary: 0 };
/// What every word holds before a call.
const UNTOUCHED: u32 = u32::MAX;

/// Joins two texts with the lent topics of earlier rules, and counts the records that are left of each.
fn join_with(topics: &[u8], first: &str, second: &str) -> (Result<Joined, JoinRefusal>, [usize; 2]) {
    let [mut words, mut others] = [[UNTOUCHED; TOKEN_WORDS]; 2];
    let call = ZERO.with_topics(topics);
    let joined = tergyosul::join(first.as_bytes(), second.as_bytes(), SHEET, call, &mut words, &mut others);
    let left = [&words, &others].map(|words| tokens(words).take_while(|token| token.kind != UNTOUCHED).count());
    (joined, left)
}

fn join(first: &str, second: &str) -> Result<Joined, JoinRefusal> {
    join_with(b"", first, second).0
}

/// The lines of the entries of a joining that is accepted.
fn lines(first: &str, second: &str) -> Vec<String> {
    let joined = join(first, second).unwrap_or_else(|refusal| panic!("{first}, {second}: {refusal}"));
    let shown = shown::joined(&joined, first.as_bytes(), second.as_bytes());
    shown.lines().skip(1).map(str::to_string).collect()
}

/// The number of a refusal of both texts together, which stands at 0:0.
fn refused_both(first: &str, second: &str) -> u32 {
    let refusal = join(first, second).expect_err(first);
    assert_eq!(refusal, JoinRefusal { text: None, refusal: Refusal { number: refusal.refusal.number, line: 0, column: 0, detail: 0 } });
    refusal.refusal.number
}

/// Of equal triggers the first place counts, in the first text, too.
#[test]
fn repeats_are_dropped() {
    let joined = lines("when http trigger when every 1h when http trigger", "when every 60m when controller starts");
    assert_eq!(joined, ["T 1 http_trigger", "T 1 every 3600000", "T 2 controller_starts"]);
    assert_eq!(lines("when http trigger", "when http trigger"), ["T 1 http_trigger"]);
}

/// Names are compared by their bytes, wherever they stand, and each stands in its own text.
#[test]
fn names_stand_in_their_texts() {
    let joined = lines(
        "when timer(\"a\") fires if timer(\"n\") is running",
        "when every 1s when timer(\"b\") fires   when timer(\"a\") fires if   timer(\"n\") is running",
    );
    assert_eq!(joined, ["T 1 timer_fires x61", "T 2 every 1000", "T 2 timer_fires x62", "C 1 timer_running x6e"]);
}

/// Entries that are written in different ways are the same.
#[test]
fn equal_by_record() {
    for (first, second) in [
        ("when lamp(\"Till\") turns on", "when lamp(7, adapter=1) turns on"),
        ("when at 7:05", "when at 07:05 on tue..mon"),
        ("when at sunset", "when at sunset - 0s"),
        ("when http trigger if var(\"w\") == 0", "when http trigger if var(\"w\") == -0"),
        ("when http trigger if var(\"v\") > var(\"w\") + 0", "when http trigger if var(\"v\") > var(\"w\") - 0"),
    ] {
        assert_eq!(lines(first, second), lines(first, first), "{second}");
    }
    assert_eq!(lines("when input(group=3) is press", "when input(group=3, type=0) is press").len(), 2);
    assert_eq!(refused_both("when http trigger if var(\"w\") == 5", "when http trigger if var(\"w\") == \"5\""), 51);
}

/// 51 for conditions that differ, before 52 for more than four triggers; both leave all records.
#[test]
fn what_both_are_refused_with() {
    let up = "when http trigger if sun is up and sun is down";
    assert_eq!(refused_both(up, "when http trigger if sun is down and sun is up"), 51);
    assert_eq!(refused_both(up, "when http trigger if sun is up"), 51);
    assert_eq!(refused_both(up, "when http trigger"), 51);
    assert_eq!(refused_both("when http trigger", up), 51);
    let three = "when every 1s when every 2s when every 3s";
    assert_eq!(refused_both(three, "when every 4s when every 5s"), 52);
    assert_eq!(refused_both(three, "when every 4s when every 5s if sun is up"), 51);
    assert_eq!(lines(three, "when every 4s when every 1s when every 3s when every 2s").len(), 4);
    assert_eq!(join_with(b"", up, "when http trigger").1, [11, 3]);
    assert_eq!(join_with(b"", three, "when every 4s when every 5s").1, [9, 6]);
}

/// The first text is refused first, and then the second is not read.
#[test]
fn which_text_is_refused() {
    let refused = |text, number, column| JoinRefusal { text: Some(text), refusal: Refusal { number, line: 1, column, detail: 0 } };
    assert_eq!(join_with(b"", "when @", "when @"), (Err(refused(Text::First, 10, 6)), [1, 0]));
    assert_eq!(join_with(b"", "when http trigger", "when @"), (Err(refused(Text::Second, 10, 6)), [3, 1]));
    let repeat = "when input(dev=1, dev=2, inst=0) is press";
    assert_eq!(join("when http trigger", repeat), Err(refused(Text::Second, 63, 19)));
    let shown = join("when http trigger", repeat).unwrap_err().to_string();
    assert_eq!(shown, "second text, 1:19: an argument is given a second time (refusal 63)");
}

/// Too few words for a text are told of that text, and 53 of the first.
#[test]
fn short_words_and_another_primary() {
    let text = b"when http trigger";
    let both = |party, size, other| {
        let [mut words, mut others] = [[UNTOUCHED; TOKEN_WORDS]; 2];
        let refusal = tergyosul::join(text, text, SHEET, party, &mut words[..size], &mut others[..other]).unwrap_err();
        (refusal.text, refusal.refusal.number)
    };
    assert_eq!(both(ZERO, TOKEN_WORDS - 1, 0), (Some(Text::First), 2));
    assert_eq!(both(ZERO, TOKEN_WORDS, TOKEN_WORDS - 1), (Some(Text::Second), 2));
    assert_eq!(both(Party { number: 3, primary: 0 }, TOKEN_WORDS, TOKEN_WORDS), (Some(Text::First), 53));
}

/// The topics of the first text count as earlier for the second, beside the lent ones.
#[test]
fn topics_of_the_first_are_earlier() {
    let two = "when mqtt \"a\" when mqtt \"b\"";
    let six = b"1\n2\n3\n4\n5\n6";
    let refusal = join_with(six, two, "when mqtt \"c\"").0.unwrap_err();
    assert_eq!(refusal.to_string(), "second text, 1:6: eight other topics are named already (refusal 66)");
    let joined = join_with(six, two, "when mqtt \"a\"").0.expect("it is not new");
    assert!(joined.triggers().all(|(trigger, text)| matches!(trigger, Trigger::MqttMessage(_)) && text == Text::First));
}
