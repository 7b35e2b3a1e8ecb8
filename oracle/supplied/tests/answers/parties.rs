//! Document 02 §6: the resolver gets the party's rows and the call's primary.

use crate::told::{case, told};

const SHARED: &[u8] = b"primary,0\nlamp,1,7,Till\nadapter,0\nadapter,1\nadapter,2\nparty,1,7\nlamp,0,8,Till\nlamp,1,9,Oven\n\
lamp,0,4,Wide\nlamp,1,5,Wide\nlamp,2,6,Wide\n";

fn verdict_for(text: &str, sheet: &[u8], party: u8, primary: u8) -> String {
    told(&case(text.as_bytes(), sheet).with_party(party, primary)).1.join(" / ")
}

fn lamp(reference: &str, party: u8, primary: u8) -> String {
    let said = verdict_for(&format!("when lamp({reference}) turns on"), SHARED, party, primary);
    said.strip_prefix("buffer kept / ").expect("a verdict").to_owned()
}

#[test]
fn the_partys_rows_alone_are_names() {
    assert_eq!(lamp("\"Till\"", 0, 0), "accepted 1 0 / T lamp_turns 0 8 on");
    assert_eq!(lamp("\"Till\"", 7, 1), "accepted 1 0 / T lamp_turns 1 7 on");
    assert_eq!(lamp("\"Till\", adapter=2", 0, 0), "refused 32 1 11 0");
    assert_eq!(lamp("\"Oven\"", 0, 0), "refused 31 1 11 0");
    assert_eq!(lamp("\"Wide\"", 0, 0), "refused 34 1 11 2");
}

#[test]
fn anothers_adapter_is_not_listed() {
    assert_eq!(lamp("3, adapter=1", 0, 0), "refused 25 1 22 0");
    assert_eq!(lamp("3, adapter=1", 7, 1), "accepted 1 0 / T lamp_turns 1 3 on");
    assert_eq!(lamp("3, adapter=0", 7, 1), "refused 25 1 22 0");
}

#[test]
fn the_primary_is_the_calls() {
    assert_eq!(lamp("3", 0, 200), "accepted 1 0 / T lamp_turns 200 3 on");
    assert_eq!(lamp("3", 7, 1), "accepted 1 0 / T lamp_turns 1 3 on");
}

#[test]
fn a_primary_that_is_not_the_partys_is_refused_by_the_driver() {
    for (party, primary) in [(0, 1), (7, 0), (7, 2), (3, 0)] {
        assert_eq!(lamp("@", party, primary), "refused 53 0 0 0");
    }
    assert_eq!(verdict_for("", b"primary,0\nparty,0,3", 0, 0), "buffer kept / refused 53 0 0 0");
    let ill_formed = case(b"\xff", SHARED).with_party(0, 1);
    assert_eq!(told(&ill_formed).1, ["buffer kept", "refused 4 1 1 0"]);
}

#[test]
fn party_rows_are_held_to_question_3() {
    for (rows, line) in [
        ("party,1,7\nparty,1,7", 3), ("party,1,0\nparty,1,7", 3), ("party,1,01", 2), ("party,256,1", 2), ("party,1", 2), ("party,1,2,", 2),
    ] {
        let sheet = format!("primary,0\n{rows}\n");
        assert_eq!(verdict_for("", sheet.as_bytes(), 0, 0), format!("buffer kept / refused 3 {line} 0 0"), "{rows}");
    }
    let sheet = |rows: usize| format!("primary,0\n{}{}", "adapter,0\n".repeat(rows - 1), "party,9,7");
    assert_eq!(verdict_for("", sheet(512).as_bytes(), 0, 0), "buffer kept / refused 38 1 1 0");
    assert_eq!(verdict_for("", sheet(513).as_bytes(), 0, 0), "buffer kept / refused 3 514 0 0");
}
