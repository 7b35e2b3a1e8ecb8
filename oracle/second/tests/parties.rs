//! Document 02 §6, two hirers on one sheet: whose an adapter is, what a party's call sees, and 53.

mod common;
use cases::{Case, Habit};
use common::*;

/// The grocer's adapters 0 and 2, and 1 of party 7, the baker's. Names on one side only, on both, and twice.
const SHARED: &str = "primary,0\nadapter,0\nadapter,1\nadapter,2\nparty,1,7\nlamp,1,7,Till\nlamp,0,8,Till\nlamp,1,9,Oven\n\
                      lamp,0,1,Twice\nlamp,0,2,Twice\nlamp,1,3,Twice\nlamp,0,4,Wide\nlamp,1,5,Wide\nlamp,2,6,Wide\n";

fn call(text: &str, sheet: &str, party: u8, primary: u8) -> Case {
    case(text.as_bytes(), sheet.as_bytes()).with_party(party, primary).with_habit(Habit::Rule)
}

fn says(text: &str, sheet: &str, party: u8, primary: u8) -> String {
    let says = verdict_of(&call(text, sheet, party, primary));
    assert_eq!(verdict_of(&call(text, sheet, party, primary).with_habit(Habit::Archive)), says, "{text}");
    says
}

/// What is said of `when lamp(…) turns on` with the sheet `SHARED`.
fn lamp(reference: &str, party: u8, primary: u8) -> String {
    says(&format!("when lamp({reference}) turns on"), SHARED, party, primary)
}

fn lamp_is(adapter: u8, number: u8) -> String {
    format!("accepted 1 0\nT lamp_turns {adapter} {number} on")
}

fn refuses(number: u32, column: u32, detail: u32) -> String {
    format!("refused {number} 1 {column} {detail}")
}

const HTTP: &str = "when http trigger";
const PRIMARY_REFUSED: &str = "refused 53 0 0 0";

#[test]
fn p15_53_is_asked_after_4_and_before_the_lexer() {
    let sheet = "primary,0\nparty,1,7";
    assert_eq!(says("when @", sheet, 0, 1), PRIMARY_REFUSED);
    assert_eq!(second::answer(&call("when @", sheet, 0, 1)), "case 1\nbuffer kept\nrefused 53 0 0 0\n");
    assert_eq!(says(&"(".repeat(1_025), sheet, 0, 1), PRIMARY_REFUSED);
    let with = |text: &[u8], sheet: &str, words: usize| {
        verdict_of(&Case { text: text.to_vec(), words, ..call("", sheet, 0, 1) })
    };
    let enough = cases::LEAST_WORDS;
    assert_eq!(with(b"when \xff", sheet, enough), "refused 4 1 6 0");
    assert_eq!(with(b"\xff", "primary,0\nparty,1,7\nadapter", enough), "refused 3 3 0 0");
    assert_eq!(with(b"\xff", sheet, enough - 1), "refused 2 0 0 0");
    assert_eq!(with(&[b' '; 16_385], sheet, 0), "refused 1 0 0 0");
    assert_eq!(says("when @", sheet, 7, 1), "refused 10 1 6 0");
}

#[test]
fn p16_the_primary_needs_no_row() {
    assert_eq!(says("when lamp(3) turns on", "primary,0", 0, 200), lamp_is(200, 3));
    assert_eq!(says("when lamp(3, adapter=200) turns on", "primary,0", 0, 200), refuses(25, 22, 0));
    for primary in [0, 3, 255] {
        assert_eq!(says(HTTP, "primary,0", 3, primary), PRIMARY_REFUSED);
    }
    assert_eq!(says(HTTP, "primary,0\nparty,9,3", 3, 9), "accepted 1 0\nT http_trigger");
    assert_eq!(says(HTTP, "primary,0\nparty,9,3", 3, 0), PRIMARY_REFUSED);
}

#[test]
fn p17_the_sheets_own_primary_is_a_case_lines_only() {
    assert_eq!(verdict_with(HTTP, "primary,0\nparty,0,3"), PRIMARY_REFUSED);
    assert_eq!(says("when lamp(3) turns on", "primary,0\nparty,0,3", 0, 1), lamp_is(1, 3));
    assert_eq!(says("when lamp(3) turns on", "primary,0\nparty,0,3", 3, 0), lamp_is(0, 3));
    assert_eq!(verdict_with("when lamp(3) turns on", "primary,9\nparty,0,3"), lamp_is(9, 3));
    assert_eq!(verdict_with(HTTP, "primary,256\nparty,0,3"), "refused 3 1 0 0");
}

#[test]
fn p18_a_party_row_lists_no_adapter() {
    assert_eq!(says("when lamp(3, adapter=1) turns on", "primary,0\nparty,1,0", 0, 0), refuses(25, 22, 0));
    assert_eq!(says("when lamp(3, adapter=1) turns on", "primary,0\nparty,1,7", 7, 1), refuses(25, 22, 0));
    assert_eq!(says("when lamp(3, adapter=1) turns on", "primary,0\nparty,1,7\nadapter,1", 7, 1), lamp_is(1, 3));
}

#[test]
fn p19_a_second_party_row_is_bad() {
    for second in ["party,1,7", "party,1,8", "party,1,0"] {
        for first in ["party,1,7", "party,1,0"] {
            let sheet = format!("primary,0\n{first}\nadapter,1\n{second}\nparty,2,7\n");
            assert_eq!(says(HTTP, &sheet, 0, 0), "refused 3 4 0 0", "{sheet}");
        }
    }
    assert_eq!(says(HTTP, "primary,0\nparty,1,7\nparty,2,7\nparty,7,1", 0, 0), "accepted 1 0\nT http_trigger");
    assert_eq!(says(HTTP, "primary,0\nparty,1,7\nparty,1,x\nparty,1,7", 0, 0), "refused 3 3 0 0");
}

#[test]
fn p20_party_rows_hold_for_the_whole_sheet() {
    let sheet = "primary,0\nadapter,1\nlamp,1,7,Till\nparty,1,7\nlamp,1,8,Oven\n";
    for (name, number) in [("Till", 7), ("Oven", 8)] {
        let text = format!("when lamp(\"{name}\") turns on");
        assert_eq!(says(&text, sheet, 0, 0), refuses(31, 11, 0));
        assert_eq!(says(&text, sheet, 7, 1), lamp_is(1, number));
    }
    assert_eq!(says("when lamp(1, adapter=1) turns on", sheet, 0, 0), refuses(25, 22, 0));
}

#[test]
fn p21_the_partys_rows_alone_are_counted() {
    assert_eq!(lamp("\"Till\"", 0, 0), lamp_is(0, 8));
    assert_eq!(lamp("\"Till\"", 7, 1), lamp_is(1, 7));
    assert_eq!(lamp("\"Till\", adapter=2", 0, 0), refuses(32, 11, 0));
    assert_eq!(lamp("\"Oven\"", 0, 0), refuses(31, 11, 0));
    assert_eq!(lamp("\"Oven\", adapter=2", 0, 0), refuses(31, 11, 0));
    assert_eq!(lamp("\"Oven\"", 7, 1), lamp_is(1, 9));
    assert_eq!(lamp("\"Twice\"", 0, 0), refuses(33, 11, 2));
    assert_eq!(lamp("\"Twice\"", 7, 1), lamp_is(1, 3));
    assert_eq!(lamp("\"Wide\"", 0, 0), refuses(34, 11, 2));
    assert_eq!(lamp("\"Wide\", adapter=2", 0, 0), lamp_is(2, 6));
    assert_eq!(lamp("\"Wide\"", 7, 1), lamp_is(1, 5));
}

#[test]
fn p22_anothers_adapter_is_not_listed() {
    assert_eq!(lamp("3, adapter=1", 0, 0), refuses(25, 22, 0));
    assert_eq!(lamp("64, adapter=1", 0, 0), refuses(25, 23, 0));
    assert_eq!(lamp("\"Oven\", adapter=1", 0, 0), refuses(25, 27, 0));
    assert_eq!(lamp("\"Nobody\", adapter=1", 0, 0), refuses(25, 29, 0));
    assert_eq!(lamp("3, adapter=256", 0, 0), refuses(22, 22, 0));
    assert_eq!(lamp("3, adapter=0", 7, 1), refuses(25, 22, 0));
    assert_eq!(lamp("3, adapter=1", 7, 1), lamp_is(1, 3));
    for form in ["scene(3, adapter=1) recalled", "input(group=3, adapter=1) is press", "input device(3, adapter=1) power cycled"] {
        assert!(says(&format!("when {form}"), SHARED, 0, 0).starts_with("refused 25 "), "{form}");
        assert!(says(&format!("when {form}"), SHARED, 7, 1).starts_with("accepted "), "{form}");
    }
}

#[test]
fn p23_the_calls_primary_stands_in() {
    let text = "when scene(3) recalled when input(group=4) is press when input(5, 6) is press when hcl override clears for broadcast \
                if group(7) any_on and device(8) is online and var(\"v\") == lamp(9).level and hcl is enabled for broadcast";
    let lines = "accepted 4 4\nT scene_recalled P 3\nT input_event group P 4 - press\nT input_event instance P 5 6 press\n\
                 T hcl_override broadcast P clears\nC group_state P 7 any_on\nC device_online P 8\n\
                 C var_compare x76 eq value reading lamp_level P 9\nC hcl_state broadcast P enabled";
    for (party, primary) in [(0, 0), (0, 2), (0, 255), (7, 1)] {
        assert_eq!(says(text, SHARED, party, primary), lines.replace(" P ", &format!(" {primary} ")), "{party} {primary}");
    }
}

#[test]
fn p24_party_rows_count_and_keep_to_the_rule_of_numbers() {
    for row in [
        "party", "party,", "party,1", "party,1,", "party,,1", "party,1,01", "party,01,1", "party,1,00", "party,1,256", "party,256,1",
        "party,1,-1", "party,1,+1", "party,1, 1", "party,1,1 ", "party,1,2,", "party,1,2,3", "Party,1,2", "parties,1,2", "party,1,x",
        "party,1,1000", "party 1,2",
    ] {
        assert_eq!(says(HTTP, &format!("primary,0\n{row}\nadapter,1"), 0, 0), "refused 3 2 0 0", "{row}");
    }
    for row in ["party,0,0", "party,255,255", "party,1,10"] {
        assert_eq!(says(HTTP, &format!("primary,0\n{row}"), 0, 9), "accepted 1 0\nT http_trigger", "{row}");
    }
    assert_eq!(says(HTTP, "party,0,0\nprimary,0", 0, 0), "refused 3 1 0 0");
    let parties: String = (0..256).map(|adapter| format!("party,{adapter},7\n")).collect();
    let sheet = |rows: usize, last: &str| format!("primary,0\n{parties}{}{last}", "adapter,1\n".repeat(rows - 256));
    assert_eq!(says(HTTP, &sheet(512, ""), 7, 1), "accepted 1 0\nT http_trigger");
    assert_eq!(says(HTTP, &sheet(513, ""), 7, 1), "refused 3 514 0 0");
    assert_eq!(says(HTTP, &sheet(512, "party,1,7"), 7, 1), "refused 3 514 0 0");
    assert_eq!(says(HTTP, &sheet(511, "party,1,7\nadapter,1"), 7, 1), "refused 3 513 0 0");
}

/// "Demands 2 and 3 and the grammar now speak of the party's rows, in calls whose primary is the party's."
#[test]
fn the_domain_has_no_53() {
    let in_domain = |party, primary| second::in_domain(&call(HTTP, SHARED, party, primary).with_habit(Habit::Archive));
    assert!(in_domain(0, 0) && in_domain(7, 1) && in_domain(0, 200));
    assert!(!in_domain(0, 1) && !in_domain(7, 0) && !in_domain(3, 0));
}
