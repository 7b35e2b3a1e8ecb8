//! The replay loop over this reader.

mod common;
use common::*;

#[test]
fn cases_one_after_the_other() {
    let mut input = Vec::new();
    let first = cases::Case { id: 7, ..case(b"when http trigger", b"primary,0") };
    cases::write_case(&mut input, &first).unwrap();
    cases::write_case(&mut input, &cases::Case { id: 8, ..case(b"", b"") }).unwrap();
    input.extend_from_slice(b"next 9 15 3\n1 3 7\njoin 10 5120 5119 0 0 17 4 9 0\nwhen http trigger\nwhen\nprimary,0\n\n");
    let zeros = |count: usize| " 0".repeat(count);
    input.extend_from_slice(format!("write 11 4096 0 0 0 1 9\n\na\nprimary,0\n1 0 2 16 0 1{}\n", zeros(100)).as_bytes());
    input.extend_from_slice(b"rows 12 0 0 10 20\nlamp,a,,on\nprimary,0\nlamp,0,4,a\n");
    input.extend_from_slice(format!("back 13 512 0 0 30\nprimary,0\nadapter,0\nlamp,0,4,a\n1 0 0 10 0 4 1{}\nend\n", zeros(99)).as_bytes());
    let mut out = Vec::new();
    cases::replay(&mut &input[..], &mut out, second::answer, second::next, second::join, second::write, second::convert).unwrap();
    let expected = "case 7\ntoken 1 0 0 4 1 1\ntoken 1 0 5 4 1 6\ntoken 1 0 10 7 1 11\nbuffer kept\naccepted 1 0\n\
                    T http_trigger\ncase 8\nbuffer kept\nrefused 3 1 0 0\n\
                    case 9\nbuffer kept\nchain 1 3 8\ncase 10\ntoken 1 0 0 4 1 1\ntoken 1 0 5 4 1 6\n\
                    token 1 0 10 7 1 11\nbuffer kept\nbuffer kept\nrefused 2 2 0 0 0\n\
                    case 11\nbuffer kept\nwritten 24 x7768656e2074696d65722028202261222029206669726573\n\
                    case 12\nrefused 60 1 0 0\ncase 13\nbuffer kept\nwritten 12 x6c616d702c612c302c6f6e0a\nbad input\n";
    assert_eq!(String::from_utf8(out).unwrap(), expected);
}
