//! The rules and sheets that the speed of whole calls is measured on, what both readers say of them, and what is written of their lists.

use crate::Given;
use cases::{own_primary, Case, Writing, MOST_BYTES, RECORD};

/// A call, always the archive loader's, and the name that the table gives it.
#[derive(Debug)]
pub struct Input {
    pub name: &'static str,
    pub case: Case,
}

pub const WORDS: usize = cases::LEAST_WORDS;
pub const ANSWER: usize = 108;
/// The least bytes that a text may be written to, and the words of that answer.
pub const BYTES: usize = 4_096;
pub const WRITE_ANSWER: usize = 5;
const LONGEST: usize = 16_384;
const UNTOUCHED: u32 = u32::MAX;

const SMALL: &str = "when http trigger";
const NO_NAMES: &str = "primary,0\n";

const CLOSING: &str = "# Closing: dim the shop floor once the last till is shut.
when timer(\"Closing delay\") fires
when at 21:30
when input(dev=\"Back door\", inst=2) is long_press_start
if time in sunset - 30m..23:45
and lamp(\"Till 4\", adapter=1).level >= 120   # still bright
and group(\"Sales floor\") any_on
and rule(\"Stocktaking\") is enabled
";

const OCCUPIED: &str = "# The stock room follows whoever is in it.
when input(\"Stock room sensor\", 1) becomes occupied
if input(\"Stock room sensor\", 2).light below 300
and lamp(\"Stock room\").level < 120
";

const MORNING: &str = "# Before the bakery opens, and on demand from the office.
when at sunrise - 20m
when at 5:45
when http trigger
when scene(3, adapter=1) recalled
if controller is active
and var(\"mode\") != \"holiday\"
and group(\"Bakery\") all_off
and last_fired(\"Night cleaning\") older than 90m
";

const COLD: &str = "# Refrigerated aisle: hold the colour of both rows together while nobody has changed it by hand.
when every 15m
when hcl override clears for group(\"Cold aisle\")
when lamp(\"Cold aisle left\").level crosses below 40
when device(\"Gateway\") comes online
if hcl is enabled for group(\"Cold aisle\")
and lamp(\"Cold aisle left\").cct >= lamp(\"Cold aisle right\").cct + 200
and device(\"Gateway\") is online
";

const TILLS: &str = "# Closing, as the till systems announce it.
when mqtt \"branch/0417/tills/1/closing/announced\"
when mqtt \"branch/0417/tills/4/closing/announced\"
when mqtt \"branch/0417/tills/7/closing/announced\"
when mqtt \"branch/0417/tills/8/closing/announced\"
if time in sunset - 30m..23:45
and group(\"Sales floor\") any_on
and rule(\"Stocktaking\") is enabled
";

const COMMENT: &str = "# the night crew may still be in the aisles, so that the lights stay on\n";

/// A branch: 40 rows on two adapters.
const BRANCH: &str = "primary,0
adapter,0
adapter,1
lamp,0,0,Entrance left
lamp,0,1,Entrance right
lamp,0,2,Bakery left
lamp,0,3,Bakery right
lamp,0,4,Bakery oven
lamp,0,5,Aisle 1
lamp,0,6,Aisle 2
lamp,0,7,Aisle 3
lamp,0,8,Aisle 4
lamp,0,9,Aisle 5
lamp,0,10,Cold aisle left
lamp,0,11,Cold aisle right
lamp,0,12,Cheese counter
lamp,0,13,Meat counter
lamp,0,14,Fruit
lamp,0,15,Stock room
lamp,0,16,Delivery
lamp,1,0,Till 1
lamp,1,1,Till 2
lamp,1,2,Till 3
lamp,1,3,Till 4
lamp,1,4,Till 5
lamp,1,5,Office
lamp,1,6,Staff room
lamp,1,7,Car park
lamp,1,8,Shop sign
group,0,0,Sales floor
group,0,1,Bakery
group,0,2,Cold aisle
group,0,3,Stock
group,1,0,Tills
group,1,1,Staff
device,0,20,Gateway
device,1,20,Meter
input,0,30,Back door
input,0,31,Stock room sensor
input,0,32,Front door
input,1,30,Till button
";
const BRANCH_ROWS: usize = 40;
const MOST_ROWS: usize = 512;
const GROCER: u8 = 7;

/// The branch with lamps on further adapters: so many rows, and so many bytes in all.
fn sheet(rows: usize, bytes: usize) -> String {
    let mut sheet = BRANCH.to_string();
    for lamp in 0..rows - BRANCH_ROWS {
        let room = (bytes - sheet.len()) / (rows - BRANCH_ROWS - lamp);
        let row = format!("lamp,{},{},Shelf {lamp} {:.<48}", 2 + lamp / 64, lamp % 64, "");
        sheet += &row[..room - 1];
        sheet += "\n";
    }
    sheet
}

/// The branch's adapters 0 and 1 are the grocer's, party 7, and every other adapter of some other party; behind them lamps on
/// those, up to 512 rows.
fn shared() -> String {
    let mut sheet = BRANCH.to_string();
    for adapter in 0..=255 {
        let party = if adapter < 2 { GROCER } else { adapter % GROCER };
        sheet += &format!("party,{adapter},{party}\n");
    }
    let lamps = MOST_ROWS - BRANCH_ROWS - 256;
    for lamp in 0..lamps {
        sheet += &format!("lamp,{},{},Counter {lamp}\n", 2 + lamp % 64, lamp % 64);
    }
    sheet
}

/// The eight topics of the tills, over and over, in as many bytes as the replay format lends.
fn lent() -> Vec<u8> {
    let topics = (1..=8).cycle().map(|till| format!("branch/0417/tills/{till}/closing/announced\n"));
    let most = topics.scan(0, |bytes, topic| { *bytes += topic.len(); (*bytes <= MOST_BYTES).then_some(topic) });
    most.collect::<String>().into_bytes()
}

/// The rule with comments before it, as long as a text may be.
fn commented(rule: &str) -> String {
    let room = LONGEST - rule.len();
    let comments = COMMENT.repeat(room / COMMENT.len());
    format!("{comments:<room$}{rule}")
}

/// As many tokens as a text may have: in the archive call an argument may be given again and again, and the last counts.
fn repeated(argument: &str) -> String {
    let arguments = argument.repeat(252);
    format!("when http trigger when input({arguments}dev=\"Back door\", inst=2) is press\n")
}

pub fn all() -> Vec<Input> {
    let large = sheet(400, 10_000);
    let largest = sheet(MOST_ROWS, LONGEST);
    let long_name = format!("{:8}dev=\"{:.<48}\",\n", "", "Refrigerated aisle, door 4");
    let call = |text: &str, sheet: &str| Case::new(0, WORDS, text, sheet).with_party(0, own_primary(sheet.as_bytes()));
    let input = |name, text: &str, sheet: &str| Input { name, case: call(text, sheet) };
    vec![
        input("small", SMALL, NO_NAMES),
        input("closing", CLOSING, BRANCH),
        input("occupied", OCCUPIED, BRANCH),
        input("morning", MORNING, BRANCH),
        input("cold-aisle", COLD, BRANCH),
        input("closing-400-rows", CLOSING, &large),
        input("closing-largest-sheet", CLOSING, &largest),
        input("longest-comments", &commented(CLOSING), BRANCH),
        input("longest-tokens", &format!("{:<LONGEST$}", repeated(&long_name)), BRANCH),
        input("most-tokens", &repeated("dev=1,"), BRANCH),
        input("largest-all", &format!("{:<LONGEST$}", repeated(&long_name)), &largest),
        input("refused-name", &CLOSING.replace("rule(\"Stocktaking\") is enabled", "lamp(\"Till 9\") is on"), BRANCH),
        input("refused-token", &format!("{CLOSING}@\n"), BRANCH),
        input("refused-sheet", CLOSING, &format!("{large}lamp,0,64,Till\n")),
        Input { name: "closing-most-party-rows", case: call(CLOSING, &shared()).with_party(GROCER, 0) },
        Input { name: "tills-most-topics", case: call(TILLS, BRANCH).with_topics(lent()) },
    ]
}

pub fn named(name: &str) -> Option<Input> {
    all().into_iter().find(|input| input.name == name)
}

impl Input {
    pub fn rows(&self) -> usize {
        String::from_utf8_lossy(&self.case.sheet).lines().count() - 1
    }

    /// What the proved reader says, in the last lines' words of the replay format: `accepted` and both counts, or `refused` and
    /// the refusal. With it the count of the records that it wrote.
    pub fn proved(&self) -> (String, usize) {
        let mut words = vec![UNTOUCHED; WORDS];
        let mut answer = [UNTOUCHED; ANSWER];
        let number = crate::read_archive(&self.case.text, Given::of(&self.case), &mut words, &mut answer);
        assert_eq!(number, answer[0], "{}", self.name);
        let said = match answer[..6] {
            [0, 0, 0, 0, triggers, conditions] => format!("accepted {triggers} {conditions}"),
            [number, line, column, detail, 0, 0] => format!("refused {number} {line} {column} {detail}"),
            _ => panic!("{}: {:?}", self.name, &answer[..6]),
        };
        (said, words.chunks_exact(RECORD).take_while(|record| record[0] != UNTOUCHED).count())
    }

    /// What the supplied Rust says, in the same words. The call that is timed must say it too.
    pub fn supplied(&self) -> String {
        let answer = supplied::answer(&self.case);
        let verdict = |line: &&str| line.starts_with("accepted") || line.starts_with("refused");
        let said = answer.lines().find(verdict).expect("the case is in the domain").to_string();
        match supplied::plain_call(&self.case) {
            Ok((triggers, conditions)) => {
                assert_eq!(said, format!("accepted {} {}", triggers.len(), conditions.len()), "{}", self.name);
            }
            Err(why) => assert!(said.starts_with("refused"), "{}: {said}, {why:?}", self.name),
        }
        said
    }
}

impl Input {
    /// The text that the proved library writes of the lists that it read; nothing if it refuses the input.
    pub fn written(&self) -> Option<Vec<u8>> {
        let (mut words, mut lists) = (vec![0; WORDS], [0; ANSWER]);
        let (mut text, mut answer) = (vec![0; BYTES], [0; WRITE_ANSWER]);
        let given = Given::of(&self.case);
        if crate::read_archive(&self.case.text, given, &mut words, &mut lists) != 0 {
            return None;
        }
        assert_eq!(crate::write(&self.case.text, given, &lists, &mut text, &mut answer), 0, "{}", self.name);
        text.truncate(answer[4] as usize);
        Some(text)
    }

    /// What the second reader writes, as the last line of its answer.
    fn written_by_the_second(&self) -> Option<String> {
        let Case { id, text, sheet, .. } = self.case.clone();
        let (party, primary) = (self.case.party(), self.case.primary());
        let lists = second::flat_of_call(&self.case)?;
        let answer = second::write(&Writing { id, size: BYTES, party, primary, texts: [text, Vec::new()], sheet, lists });
        answer.lines().last().map(String::from)
    }
}

/// Both readers must say the same of each input, and the same text must be written.
pub fn assert_agreed() {
    for input in all() {
        assert_eq!(input.proved().0, input.supplied(), "{}", input.name);
        let hex = |text: &[u8]| text.iter().map(|byte| format!("{byte:02x}")).collect::<String>();
        let written = input.written().map(|text| format!("written {} x{}", text.len(), hex(&text)));
        assert_eq!(written, input.written_by_the_second(), "{}", input.name);
    }
}

#[cfg(test)]
mod tests {
    use super::*;

    #[test]
    fn the_readers_agree() {
        assert_agreed();
    }

    #[test]
    fn the_inputs_are_what_their_names_say() {
        let sizes = |name| {
            let input = named(name).expect(name);
            (input.case.text.len(), input.proved().1, input.case.sheet.len(), input.rows())
        };
        assert_eq!(sizes("closing").3, BRANCH_ROWS);
        assert_eq!((sizes("closing-400-rows").2, sizes("closing-400-rows").3), (10_000, 400));
        assert_eq!((sizes("closing-largest-sheet").2, sizes("closing-largest-sheet").3), (LONGEST, 512));
        assert_eq!(sizes("longest-comments").0, LONGEST);
        assert_eq!((sizes("longest-tokens").0, sizes("longest-tokens").1), (LONGEST, 1_024));
        assert_eq!(sizes("most-tokens").1, 1_024);
        assert_eq!(sizes("largest-all"), (LONGEST, 1_024, LONGEST, 512));
        let party_rows = |input: &Input| String::from_utf8_lossy(&input.case.sheet).lines().filter(|row| row.starts_with("party,")).count();
        assert_eq!(named("closing-most-party-rows").map(|input| party_rows(&input)), Some(256));
        let topics = named("tills-most-topics").expect("it is among them").case.topics().to_vec();
        assert!(topics.len() <= MOST_BYTES && topics.len() + 48 > MOST_BYTES, "{}", topics.len());
        assert!(all().iter().all(|input| input.case.primary() == own_primary(&input.case.sheet)));
        assert_eq!(all().iter().filter(|input| input.case.party() != 0).count(), 1);
        assert_eq!(all().iter().filter(|input| !input.case.topics().is_empty()).count(), 1);
        let said: Vec<String> = all().iter().map(|input| input.proved().0).collect();
        assert!(said[..11].iter().all(|said| said.starts_with("accepted")), "{said:?}");
        assert_eq!(said[11..14], ["refused 31 8 10 0", "refused 10 9 1 0", "refused 3 402 0 0"]);
        assert_eq!((said[14].as_str(), sizes("closing-most-party-rows").3), ("accepted 3 4", MOST_ROWS));
        assert_eq!(said[15], "accepted 4 3");
    }
}
