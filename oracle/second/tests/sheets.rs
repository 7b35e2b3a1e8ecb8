//! Document 02 §8, sheets from the office spreadsheet: line ends with CR, and names with commas.

mod common;
use cases::Habit;
use common::*;

/// What is said of `when lamp("…") turns on`: the same by every habit.
fn lamp(name: &str, sheet: impl AsRef<[u8]>) -> String {
    let case = case(format!("when lamp(\"{name}\") turns on").as_bytes(), sheet.as_ref());
    let says = verdict_of(&case);
    for habit in Habit::ALL {
        assert_eq!(verdict_of(&case.with_habit(habit)), says, "{name}");
    }
    says
}

fn found(number: u32) -> String {
    format!("accepted 1 0\nT lamp_turns 0 {number} on")
}

const NOT_FOUND: &str = "refused 31 1 11 0";

/// Each sheet is bad, at its line.
fn bad(table: &[(&str, u32)]) {
    for (sheet, line) in table {
        assert_eq!(lamp("Till", sheet), format!("refused 3 {line} 0 0"), "{sheet:?}");
    }
}

#[test]
fn p25_one_cr_belongs_to_the_line_end_of_every_line() {
    let rows = ["primary,0", "adapter,0", "party,9,7", "group,0,1,Till", "lamp,0,7,Till"];
    for ends in 0..64_u32 {
        let end = |nth: usize| if ends >> nth & 1 == 1 { "\r\n" } else { "\n" };
        let sheet: String = rows.iter().enumerate().map(|(nth, row)| format!("{row}{}", end(nth))).collect();
        for sheet in [&sheet[..], sheet.trim_end_matches('\n'), sheet.trim_end()] {
            assert_eq!((lamp("Till", sheet), lamp("Till\r", sheet)), (found(7), NOT_FOUND.to_string()), "{sheet:?}");
        }
    }
    assert_eq!(verdict_with("when http trigger", "primary,0\r"), "accepted 1 0\nT http_trigger");
    assert_eq!(verdict_with("when lamp(3) turns on", "primary,9\r\n"), "accepted 1 0\nT lamp_turns 9 3 on");
}

#[test]
fn p25_only_one() {
    bad(&[
        ("primary,0\r\r\n", 1), ("primary,0\r\r", 1), ("primary,0\nadapter,1\r\r\n", 2), ("primary,0\nparty,1,2\r\r\n", 2),
        ("primary,0\nlamp,0,7,Till\r\r\n", 2), ("primary,0\nlamp,0,7,Till\r\r", 2), ("primary,0\r\nadapter,1\r\r\nadapter,256\n", 2),
        ("primary,0\n\r\r\n", 2), ("primary\r,0\n", 1), ("primary,\r0\n", 1), ("\rprimary,0\n", 1), ("primary,0\n\radapter,1\n", 2),
        ("primary,0\nadapter\r,1\n", 2), ("primary,0\nadapter,1\r2\n", 2), ("primary,0\nlamp,0\r,7,Till\n", 2), ("primary,0\rlamp,0,7,Till", 1),
    ]);
}

#[test]
fn p26_a_cr_behind_the_last_lf_is_a_line() {
    bad(&[("primary,0\n\r", 2), ("primary,0\r\n\r", 2), ("primary,0\n\r\n", 2), ("primary,0\n\n", 2), ("\r", 1), ("\r\n", 1), ("\r\nprimary,0", 1)]);
    let rows = "primary,0".to_string() + &"\nadapter,7".repeat(512);
    bad(&[(&format!("{rows}\n\r"), 514), (&format!("{rows}\r\nadapter,7\r"), 514)]);
    assert_eq!([lamp("a", format!("{rows}\r")), lamp("a", format!("{rows}\r\n"))], [NOT_FOUND, NOT_FOUND]);
}

#[test]
fn p27_lengths() {
    let name = "n".repeat(48);
    bad(&[("primary,0\nlamp,0,1,\r\n", 2), ("primary,0\nlamp,0,1,\r", 2), ("primary,0\nlamp,0,1\r\n", 2), ("primary,0\nadapter,\r\n", 2)]);
    assert_eq!([lamp(&name, format!("primary,0\nlamp,0,7,{name}\r\n")), lamp(&name, format!("primary,0\nlamp,0,7,{name}\r"))], [found(7), found(7)]);
    let commas = ",".repeat(48);
    assert_eq!(lamp(&commas, format!("primary,0\nlamp,0,7,{commas}\r\n")), found(7));
    bad(&[
        (&format!("primary,0\nlamp,0,7,{name}n\r\n"), 2), (&format!("primary,0\nlamp,0,7,{commas},\r"), 2), (&format!("primary,0\nlamp,0,7,{name}\r\r"), 2),
    ]);
    // The 16,384 bytes count the CRs.
    let sheet = |bytes: usize| {
        let rows = "primary,0\r\n".to_string() + &format!("lamp,0,1,{name}\r\n").repeat(277);
        let left = bytes - rows.len();
        assert!((13..=59).contains(&left), "{left}");
        format!("{rows}lamp,0,7,{}\r\n", "b".repeat(left - 11))
    };
    assert_eq!((sheet(16_384).len(), lamp("a", sheet(16_384)), lamp("a", sheet(16_385))), (16_384, NOT_FOUND.to_string(), "refused 3 0 0 0".to_string()));
}

#[test]
fn p28_only_a_name_runs_to_the_line_end() {
    bad(&[
        ("primary,0\nadapter,1,\n", 2), ("primary,0\nadapter,1,2\n", 2), ("primary,0\nadapter,1,2,3\n", 2), ("primary,0\nparty,1,2,\n", 2),
        ("primary,0\nparty,1,2,3\n", 2), ("primary,0,\n", 1), ("primary,0,1,2\n", 1), ("primary,0\nscene,0,1,a,b\n", 2), ("primary,0\nlamp,0,1,\n", 2),
        ("primary,0\nlamp,,0,1,a\n", 2), ("primary,0\nlamp,0,,1,a\n", 2), ("primary,0\nlamp,0,64,a,b\n", 2), ("primary,0\nlamp,0,01,a,b", 2),
    ]);
    let sheet = "primary,0\nlamp,0,1,,\nlamp,0,2,a,\r\nlamp,0,3,,a\nlamp,0,4,a,b,c\r\nlamp,0,5,0,1,Till\nlamp,0,6,lamp,0,6,Till";
    for (name, number) in [(",", 1), ("a,", 2), (",a", 3), ("a,b,c", 4), ("0,1,Till", 5), ("lamp,0,6,Till", 6)] {
        assert_eq!(lamp(name, sheet), found(number), "{name}");
    }
    for name in ["a", "a,b", "b,c", "c", "Till", "1,Till", ",\r", "a,\r"] {
        assert_eq!(lamp(name, sheet), NOT_FOUND, "{name}");
    }
}

#[test]
fn p29_what_a_name_has_not() {
    bad(&[
        ("primary,0\nlamp,0,1,a\"\n", 2), ("primary,0\nlamp,0,1,a,\"\n", 2), ("primary,0\nlamp,0,1,\",a\n", 2), ("primary,0\nlamp,0,1,\"a, b\"\r\n", 2),
        ("primary,0\nlamp,0,1,a\rb\n", 2), ("primary,0\nlamp,0,1,\ra\n", 2), ("primary,0\nlamp,0,1,a,\rb\r\n", 2),
    ]);
    let sheet = b"primary,0\r\nlamp,0,1,a\0,b\r\nlamp,0,2,\xFF,\r\nlamp,0,3,\t\x7f\x1f\r\n";
    assert_eq!([lamp("a\0,b", sheet), lamp("\t\x7f\x1f", sheet)], [found(1), found(3)]);
}

#[test]
fn p30_a_quoted_name_equals_the_whole_name() {
    let sheet = "primary,0\nadapter,0\nlamp,0,1,Aisle 3, cold\nlamp,1,2,Aisle 3, cold\nlamp,1,3,Aisle 4, cold\ngroup,0,2,cold\n";
    for name in ["cold", " cold", "Aisle 3", "Aisle 3,", "Aisle 3,cold", "Aisle 3, cold ", "Aisle 3, cold, "] {
        assert_eq!(lamp(name, sheet), NOT_FOUND, "{name}");
    }
    assert_eq!(lamp("Aisle 3, cold", sheet), "refused 34 1 11 2");
    assert_eq!(verdict_with("when lamp(\"Aisle 3, cold\", adapter=0) turns on", sheet), found(1));
    assert_eq!(verdict_with("when lamp(\"Aisle 4, cold\", adapter=0) turns on", sheet), "refused 32 1 11 1");
}

#[test]
fn p31_no_name_ends_in_cr() {
    let sheet = "primary,0\r\nlamp,0,7,Till\r\nlamp,0,8,Oven\n";
    assert_eq!([lamp("Till", sheet), lamp("Oven", sheet)], [found(7), found(8)]);
    assert_eq!([lamp("Till\r", sheet), lamp("Oven\r", sheet)], [NOT_FOUND, NOT_FOUND]);
}

/// Party rows have line ends as others, and a name with commas is seen by its party alone.
#[test]
fn parties_are_read_with_line_ends() {
    let sheet = b"primary,0\r\nadapter,1\r\nparty,1,7\r\nlamp,1,7,a, b\r\nlamp,0,8,a, b\r\n";
    let call = |party, primary| verdict_of(&case(b"when lamp(\"a, b\") turns on", sheet).with_party(party, primary));
    assert_eq!([call(0, 0), call(7, 1)], ["accepted 1 0\nT lamp_turns 0 8 on", "accepted 1 0\nT lamp_turns 1 7 on"]);
    assert_eq!(call(0, 1), "refused 53 0 0 0");
    bad(&[("primary,0\nparty,1,7\r\nparty,1,7\n", 3), ("primary,0\nparty,1,7\nparty,1,0\r\n", 3)]);
    assert_eq!(verdict_with("when http trigger", "primary,0\r\nparty,0,3\r"), "refused 53 0 0 0");
}
