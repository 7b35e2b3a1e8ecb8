//! Two hirers on one sheet: the grocer is party 0 and the bakery party 3.

use tergyosul::{sheet_primary, LightTarget, Override, Party, Power, Ref, Refusal, Rule, Trigger, TOKEN_WORDS};

const SHEET: &[u8] = b"primary,0\nadapter,0\nadapter,2\nlamp,0,2,Oven\nlamp,0,3,Till\nlamp,0,4,Shelf\nadapter,7\nparty,7,3\n\
lamp,7,5,Oven\nlamp,7,6,Shelf\nlamp,7,7,Shelf\nlamp,7,8,Counter\n";
const GROCER: Party = Party { number: 0, primary: 0 };
const BAKERY: Party = Party { number: 3, primary: 7 };

fn read(text: &str, party: Party) -> Result<Rule, Refusal> {
    tergyosul::read(text.as_bytes(), SHEET, party, &mut [0; TOKEN_WORDS])
}

/// `lamp(…)` with these arguments, as number, line, column and detail.
fn refused(arguments: &str, party: Party) -> (u32, u32, u32, u32) {
    let r = read(&format!("when lamp({arguments}) turns on"), party).unwrap_err();
    (r.number, r.line, r.column, r.detail)
}

#[test]
fn each_party_finds_its_own() {
    for (party, adapter, number) in [(GROCER, 0, 2), (BAKERY, 7, 5)] {
        let rule = read("when lamp(\"Oven\") turns on", party).unwrap();
        assert_eq!(rule.triggers(), [Trigger::LampTurns(Ref { adapter, number }, Power::On)]);
    }
}

#[test]
fn what_names_no_adapter_is_on_the_calls_primary() {
    for (party, adapter) in [(GROCER, 0), (Party { primary: 200, ..GROCER }, 200), (BAKERY, 7)] {
        let rule = read("when lamp(9) turns on when hcl override starts for broadcast", party).unwrap();
        let lamp = Trigger::LampTurns(Ref { adapter, number: 9 }, Power::On);
        assert_eq!(rule.triggers(), [lamp, Trigger::HclOverride(LightTarget::Broadcast(adapter), Override::Starts)]);
    }
    // It is not thereby listed.
    assert_eq!(refused("9, adapter=200", Party { primary: 200, ..GROCER }), (25, 1, 22, 0));
}

/// Not by its name, with its adapter or without, and not by a count.
#[test]
fn another_partys_rows_are_not_seen() {
    assert_eq!(refused("\"Counter\"", GROCER), (31, 1, 11, 0));
    assert_eq!(refused("\"Counter\", adapter=0", GROCER), (31, 1, 11, 0));
    assert_eq!(refused("\"Counter\", adapter=7", GROCER), (25, 1, 30, 0));
    assert_eq!(refused("\"Till\"", BAKERY), (31, 1, 11, 0));
    // With the grocer's row they would be three, on two adapters.
    assert_eq!(refused("\"Shelf\"", BAKERY), (33, 1, 11, 2));
    // The first row of that name on another adapter is the party's own.
    assert_eq!(refused("\"Oven\", adapter=2", GROCER), (32, 1, 11, 0));
}

/// 53 comes after 1 to 4 and before the lexer, with the words as they were.
#[test]
fn a_primary_of_another_party_is_refused() {
    let mut words = [9; TOKEN_WORDS];
    let mut refused = |text: &[u8], sheet: &[u8], party: Party| {
        let refusal = tergyosul::read(text, sheet, party, &mut words).unwrap_err();
        assert_eq!(tergyosul::read_archive(text, sheet, party, &mut words), Err(refusal));
        (refusal.number, refusal.line, refusal.column, refusal.detail)
    };
    for party in [Party { primary: 7, ..GROCER }, Party { primary: 0, ..BAKERY }, Party { primary: 2, ..BAKERY }] {
        assert_eq!(refused(b"when http trigger", SHEET, party), (53, 0, 0, 0));
        assert_eq!(refused(b"when @", SHEET, party), (53, 0, 0, 0));
        assert_eq!(refused(b"when \xFF", SHEET, party), (4, 1, 6, 0));
        assert_eq!(refused(b"when \xFF", b"primary,0\nparty,7,3\nparty,7,3\n", party), (3, 3, 0, 0));
        assert_eq!(refused(&[b' '; 16_385], b"", party), (1, 0, 0, 0));
    }
    // A party without an adapter has no primary.
    assert_eq!(refused(b"when http trigger", b"primary,0\n", BAKERY), (53, 0, 0, 0));
    assert!(words.iter().all(|&word| word == 9));
}

#[test]
fn the_sheets_own_primary() {
    for (sheet, primary) in [
        (&b"primary,7"[..], 7),
        (b"primary,255\nnothing else is looked at", 255),
        (b"primary,256\n", 0),
        (b"adapter,7\nprimary,7\n", 0),
        (b"", 0),
    ] {
        assert_eq!(sheet_primary(sheet), primary);
        assert_eq!(Party::of_sheet(sheet), Party { number: 0, primary });
    }
    // It may be another party's.
    let sheet = b"primary,7\nparty,7,3\n";
    let refusal = tergyosul::read(b"when http trigger", sheet, Party::of_sheet(sheet), &mut [0; TOKEN_WORDS]).unwrap_err();
    assert_eq!(refusal.to_string(), "the primary adapter is not the party's (refusal 53)");
}

/// With another primary line, other `party` rows at other places and other rows of the others, the bakery's answers are the same.
#[test]
fn nothing_of_the_others_shows() {
    let other = b"primary,9\nparty,0,4\nparty,7,3\nlamp,1,1,Counter\nadapter,7\nlamp,7,5,Oven\nlamp,7,6,Shelf\n\
lamp,0,9,Shelf\nadapter,1\nlamp,7,7,Shelf\nlamp,7,8,Counter\nparty,9,1\nadapter,9\n";
    let references = ["\"Oven\"", "\"Shelf\"", "\"Counter\"", "\"Till\"", "9", "9, adapter=7", "9, adapter=0", "9, adapter=1"];
    for reference in references {
        let text = format!("when lamp({reference}) turns on if hcl is enabled for broadcast");
        let [mut words, mut other_words] = [[9; TOKEN_WORDS]; 2];
        let answer = tergyosul::read(text.as_bytes(), SHEET, BAKERY, &mut words);
        assert_eq!(tergyosul::read(text.as_bytes(), other, BAKERY, &mut other_words), answer, "{text}");
        assert_eq!(words, other_words, "{text}");
        assert_eq!(answer.is_ok(), ["\"Oven\"", "\"Counter\"", "9", "9, adapter=7"].contains(&reference), "{text}");
    }
}
