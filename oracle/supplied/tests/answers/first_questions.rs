//! Questions 1 to 4 of document 01, which the supplied Rust does not ask, and the shape of the whole answer.

use crate::told::{case, told, verdict_with, S};

#[test]
fn question_1_the_text_is_not_too_long() {
    assert_eq!(verdict_with(&[b' '; 16_385], b""), "refused 1 0 0 0");
    assert_eq!(verdict_with(&[b' '; 16_384], S.as_bytes()), "refused 38 1 16385 0");
}

#[test]
fn question_2_the_buffer_is_large_enough() {
    let mut small = case(b"\xff", b"");
    small.words = 5_119;
    assert_eq!(told(&small).1, ["buffer kept", "refused 2 0 0 0"]);
    small.words = 5_120;
    assert_eq!(told(&small).1, ["buffer kept", "refused 3 1 0 0"]);
}

fn bad_line(sheet: &[u8]) -> String {
    verdict_with(b"\xff", sheet)
}

#[test]
fn question_3_the_sheet_is_well_formed() {
    for (sheet, line) in [
        ("", 1), ("\n", 1), ("primary", 1), ("primary,256", 1), ("primary,00", 1), ("primary,", 1), ("adapter,0", 1),
        ("primary,0\n\n", 2), ("primary,0\nadapter,01", 2), ("primary,0\nlamp,0,64,a", 2),
        ("primary,0\ngroup,0,16,a", 2), ("primary,0\nlamp,0,1,", 2), ("primary,0\nlamp,0,1,a\rb", 2),
        ("primary,0\nscene,0,1,a", 2), ("primary,0\nadapter,0\n adapter,1", 3), ("primary,0\nprimary,0", 2),
        ("primary,0\nlamp,0,1,a\"b", 2), ("primary,0\nadapter,+1", 2),
    ] {
        assert_eq!(bad_line(sheet.as_bytes()), format!("refused 3 {line} 0 0"), "{sheet:?}");
    }
    let named = |length: usize| format!("primary,255\ninput,0,63,{}\n", "é".repeat(length / 2));
    assert_eq!(bad_line(named(48).as_bytes()), "refused 4 1 1 0");
    assert_eq!(bad_line(named(50).as_bytes()), "refused 3 2 0 0");
}

#[test]
fn question_3_the_sheet_is_not_too_long() {
    let rows = |count: usize| format!("primary,0\n{}", "adapter,0\n".repeat(count));
    assert_eq!(bad_line(rows(512).as_bytes()), "refused 4 1 1 0");
    assert_eq!(bad_line(rows(513).as_bytes()), "refused 3 514 0 0");
    assert_eq!(bad_line((rows(512) + "\n").as_bytes()), "refused 3 514 0 0");
    assert_eq!(bad_line((rows(511) + "x\ny").as_bytes()), "refused 3 513 0 0");
    assert_eq!(bad_line(&[b'x'; 16_385]), "refused 3 0 0 0");
    assert_eq!(bad_line(&[b'x'; 16_384]), "refused 3 1 0 0");
}

#[test]
fn question_4_the_text_is_utf_8() {
    for (text, place) in [
        (&b"\xff"[..], "1 1"),
        (b"\xc3\xa9\n\xc3\xa9 \xc3", "2 3"),
        (b"@\xed\xa0\x80", "1 2"),
        (b"\xf4\x90\x80\x80", "1 1"),
        (b"a\xc0\x80", "1 2"),
        (b"\"\xe2\x82\"", "1 2"),
    ] {
        assert_eq!(verdict_with(text, S.as_bytes()), format!("refused 4 {place} 0"), "{text:?}");
    }
}

#[test]
fn an_accepted_case_is_written_whole() {
    let mut whole = case("when timer(\"é\") fires if var(\"a\") == \"\"".as_bytes(), b"primary,0");
    whole.id = 42;
    let expected = "case 42\ntoken 1 0 0 4 1 1\ntoken 1 0 5 5 1 6\ntoken 7 0 10 1 1 11\ntoken 2 0 12 2 1 12\n\
        token 8 0 15 1 1 15\ntoken 1 0 17 5 1 17\ntoken 1 0 23 2 1 23\ntoken 1 0 26 3 1 26\ntoken 7 0 29 1 1 29\n\
        token 2 0 31 1 1 30\ntoken 8 0 33 1 1 33\ntoken 15 0 35 2 1 35\ntoken 2 0 39 0 1 38\nbuffer kept\n\
        accepted 1 1\nT timer_fires xc3a9\nC var_compare x61 eq text x\n";
    assert_eq!(supplied::answer(&whole), expected);
}
