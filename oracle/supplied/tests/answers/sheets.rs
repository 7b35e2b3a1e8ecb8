//! Document 02 §8: the line ends and the names of the sheet that the resolver gets.

use crate::told::verdict_with;

fn lamp(name: &str, sheet: &str) -> String {
    verdict_with(format!("when lamp(\"{name}\") turns on").as_bytes(), sheet.as_bytes())
}

#[test]
fn one_cr_belongs_to_the_line_end() {
    for sheet in ["primary,0\r\nlamp,0,7,Till\r\n", "primary,0\r\nlamp,0,7,Till\r", "primary,0\r\nadapter,0\r\nparty,1,7\r\nlamp,0,7,Till"] {
        assert_eq!(lamp("Till", sheet), "accepted 1 0 / T lamp_turns 0 7 on", "{sheet:?}");
        assert_eq!(lamp("Till\r", sheet), "refused 31 1 11 0", "{sheet:?}");
    }
    for (sheet, line) in [
        ("primary,0\r\r\n", 1), ("primary,0\n\r", 2), ("primary,0\n\r\n", 2), ("primary,0\nlamp,0,7,Till\r\r\n", 2), ("primary,0\nlamp,0,7,Till\r\r", 2),
        ("primary,0\nlamp,0,7,\r\n", 2), ("primary,0\nlamp,0,7,a\rb\n", 2), ("primary,0\nadapter,1\r\r\n", 2), ("\r", 1),
    ] {
        assert_eq!(lamp("Till", sheet), format!("refused 3 {line} 0 0"), "{sheet:?}");
    }
}

#[test]
fn a_name_runs_to_the_line_end() {
    let sheet = "primary,0\nlamp,0,1,Aisle 3, cold\nlamp,0,2,,\r\nlamp,0,3,a,\nlamp,0,4,,,a,b";
    for (name, number) in [("Aisle 3, cold", 1), (",", 2), ("a,", 3), (",,a,b", 4)] {
        assert_eq!(lamp(name, sheet), format!("accepted 1 0 / T lamp_turns 0 {number} on"), "{name}");
    }
    for name in ["cold", " cold", "Aisle 3", "a", "b", ",\r"] {
        assert_eq!(lamp(name, sheet), "refused 31 1 11 0", "{name}");
    }
    for row in ["lamp,0,1,a,\"b", "adapter,1,", "adapter,1,2,3", "party,1,2,", "party,1,2,3", "lamp,0,1,", "primary,0"] {
        assert_eq!(lamp("a", &format!("primary,0\n{row}")), "refused 3 2 0 0", "{row}");
    }
}
