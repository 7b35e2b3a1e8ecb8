//! §10: the previous owners' rows, to triggers and back: each word, what a name picks and what not, each way in which a row is malformed, lists that have no
//! rows, which name is written, and the order of the refusals.

use cases::{Conversion, Direction, Flat, Row};

/// Adapters 0, 1 and 255 are listed and party 0's, and 2 is not listed. Adapters 7 and 9 are party 3's; 7 is listed.
const SHEET: &str = "primary,0\nadapter,0\nadapter,1\nadapter,255\nadapter,7\nparty,7,3\nparty,9,3\nlamp,1,7,Till\nlamp,2,5,Far\nlamp,0,4,Aisle\nlamp,1,4,Aisle\n\
lamp,7,9,Both\nlamp,0,8,Both\nlamp,9,1,Oven\nlamp,1,5,Twin\nlamp,1,6,Twin\ngroup,0,15,Hall\ndevice,255,63,Gate\ninput,0,3,Door\n";

const SMALL: &str = "primary,0\nadapter,0\nadapter,1\nadapter,255\nlamp,1,7,Till\ngroup,0,15,Hall\ndevice,255,63,Gate\n";

/// Names of groups and devices on two adapters and twice on one; another party has them too.
const KINDS: &str = "primary,0\nadapter,0\nadapter,1\nparty,7,3\ngroup,0,1,A\ngroup,1,1,A\ngroup,7,1,A\ngroup,1,2,B\ngroup,1,3,B\ngroup,1,4,B\ngroup,7,5,B\n\
device,0,1,A\ndevice,1,1,A\ndevice,0,2,B\ndevice,0,2,B\ngroup,0,5,C\ndevice,0,5,C\ngroup,0,5,D\n";

const NONE: u32 = u32::MAX;
const SIGN: u32 = 1 << 31;

/// Rows of party 0 with primary 0.
const ROWS: &[&str] = &[
    // Each word, with an adapter and without; what is on an adapter that is not listed; equal rows.
    "lamp,Till,1,on\nlamp,Till,,off\ngroup,Hall,,any_on\ndevice,Gate,255,offline\n",
    "group,Hall,0,all_off\ndevice,Gate,,online\nlamp,Far,,off\n",
    "group,Hall,0,any_on\ngroup,Hall,,all_off\ndevice,Gate,,offline\ndevice,Gate,255,online\n",
    "lamp,Aisle,0,on\nlamp,Aisle,1,off\nlamp,Both,0,on\nlamp,Both,,on\n",
    "lamp,Till,1,off\nlamp,Till,1,off\n",
    // 25, and 31 to 34: the first row that is refused.
    "lamp,Far,2,off\nlamp,Twin,,on\n",
    "lamp,Both,7,on\nlamp,Aisle,,on\n",
    "lamp,Both,9,on\nlamp,Till,0,on\n",
    "lamp,None,2,on\nlamp,Far,2,on\n",
    "lamp,Till,,on\nlamp,Till,,off\nlamp,Till,3,on\nlamp,None,,on\n",
    "lamp,None,,on\nlamp,Far,2,on\n",
    "lamp,None,1,on\nlamp,None,,on\n",
    "lamp,Oven,,on\nlamp,Till,0,on\n",
    "lamp,Till,,on\nlamp,Till,,on\nlamp,Till,,on\nlamp,Oven,1,on\n",
    "lamp,Door,,on\nlamp,Twin,,on\n",
    "group,Till,,any_on\nlamp,Aisle,,on\n",
    "device,Gate,,online\nlamp,till,,on\n",
    "lamp,Til,,on\n",
    "lamp,Till,,on\nlamp,Till,,on\nlamp,Till ,,on\n",
    "lamp,Till,0,on\nlamp,Far,2,on\n",
    "lamp,Till,,on\nlamp,Both,1,on\nlamp,None,,on\n",
    "lamp,Till,,on\nlamp,Till,,on\nlamp,Aisle,255,on\nlamp,Aisle,,on\n",
    "lamp,Twin,,on\nlamp,Far,2,on\n",
    "lamp,Twin,1,on\nlamp,None,,on\n",
    "lamp,Till,,on\nlamp,Aisle,,on\nlamp,Far,2,on\n",
    "lamp,Twin,0,on\nlamp,Twin,,on\n",
    "lamp,Till,,on\nlamp,Till,,on\nlamp,Till,,on\nlamp,Twin,,on\n",
    "lamp,Till,,on\nlamp,Till,,on\nlamp,Aisle,,on\nlamp,None,,on\n",
    // Malformed rows come before any name.
    "lamp,None,,on\nlamp,Till,,on\nlamp,Till,,on\nlamp,Till,,on\n\n",
    "lamp,Twin,,on\nlamp,Till,,on\nlamp,Till,,on\nlamp,Till,,on\nlamp,Till,,on",
    "lamp,Till,0,on\nlamp,Till,,on\nlamp,Till,,on\nlamp,Till,,on\nlamp,Till\n",
    "lamp,Far,2,on\nlamp,Till,,on\nlamp,Till,,on\nlamp,,,on\nlamp,Till,,on\n",
    "lamp,None,,on\nlamp,Far,2,on\nlamp,Till,1,on,\n",
    "lamp,Aisle,,on\nlamp,Till,256,on\nlamp,None,,on\n",
    "lamp,Aisle 3, cold,1,on\n",
];

/// No rows, too many, ends that are none and malformed rows, with the small sheet.
const MALFORMED: &[&str] = &[
    "",
    "\n",
    "\n\n\n\n\n",
    "lamp,Till,1,on",
    "lamp,Till,1,on\n\n",
    "lamp,Till,1,on\n\nlamp,Till,1,on\n",
    "lamp,Till,1,on\r\n",
    "lamp,Till,,on\nlamp,Till,1,on\r\r\n",
    "lamp,Till,,on\nlamp,Till,,on\nlamp,Till,,on\nlamp,Till,,on\nlamp,Till,,on\n",
    "lamp,Till,,on\nlamp,Till,,on\nlamp,Till,,on\nlamp,Till,,on\nx",
    "lamp,Till\n",
    "lamp,Till,on\n",
    "lamp,a,b,c,1,on\n",
    "lamp;Till;1;on\n",
    " lamp,Till,1,on\n",
    ",Till,1,on\n",
    "Lamp,Till,1,on\n",
    "lamps,Till,1,on\n",
    "adapter,Till,1,on\n",
    "scene,Till,1,on\n",
    "input,Door,0,offline\n",
    "lamp,,1,on\n",
    "lamp,\"Till\",1,on\n",
    "lamp,Ti\rll,1,on\n",
    "lamp,Till,01,on\n",
    "lamp,Till,00,on\n",
    "lamp,Till,+1,on\n",
    "lamp,Till, 1,on\n",
    "lamp,Till,1\r,on\n",
    "lamp,Till,x,on\n",
    "lamp,Till,511,on\n",
    "lamp,Till,4294967297,on\n",
    "lamp,Till,1,On\n",
    "lamp,Till,1,on \n",
    "lamp,Till,1,one\n",
    "lamp,Till,1,\n",
    "lamp,Till,1,online\n",
    "group,Hall,0,off\n",
    "device,Gate,255,goes_offline\n",
    "device,Gate,255,on\n",
    "lamp,Till,1,on\0\n",
];

/// The same with that sheet.
const OF_KINDS: &[&str] = &[
    "group,A,,any_on\ngroup,A,,all_off\n",
    "device,A,,offline\ndevice,C,1,online\n",
    "group,B,,any_on\ngroup,A,,any_on\n",
    "device,B,0,online\ndevice,B,,offline\n",
    "group,C,1,any_on\ngroup,C,1,any_on\n",
    "device,C,1,offline\ndevice,B,,online\n",
    "group,C,,any_on\ngroup,A,,any_on\ngroup,B,,any_on\n",
    "group,C,,any_on\ngroup,A,7,any_on\n",
    "device,C,,offline\ndevice,D,,online\n",
    "group,C,,any_on\ngroup,D,0,any_on\ndevice,C,,online\n",
    "group,C,,any_on\ngroup,D,0,any_on\ndevice,B,,online\ndevice,C,1,online\n",
    "group,C,,any_on\ngroup,D,0,any_on\ndevice,C,,online\ndevice,C,2,online\n",
    "group,C,,any_on\ngroup,D,0,any_on\ndevice,C,,online\ndevice,C,1,online\n",
    "group,C,,any_on\ngroup,D,0,any_on\ndevice,C,,online\ndevice,A,,online\n",
];

/// Names of other sheets: of 1 and of 48 bytes, not UTF-8, with CR LF lines, up to a comma, in other letters.
const ODD_SHEET: &[u8] = b"primary,9\r\nadapter,10\r\nlamp,10,0,a\r\nlamp,10,1,\xff\0#\r\ngroup,10,2, b \nlamp,10,63,Aisle 3, cold\nlamp,10,4,\xc3\xa9\r";

const LAMP: &[u32] = &[10, 1, 7, 1];
const GROUP: &[u32] = &[12, 0, 15, 2];
const DEVICE: &[u32] = &[14, 255, 63, 1];
const HTTP: &[u32] = &[20];
/// A lamp that no row names.
const NAMELESS: &[u32] = &[10, 1, 63, 1];

/// Triggers of party 0 with primary 0.
const TRIGGERS: &[&[&[u32]]] = &[
    &[LAMP, &[12, 0, 15, 1], DEVICE, &[14, 255, 63, 2]],
    &[&[10, 1, 7, 2], GROUP, &[10, 0, 4, 1]],
    &[&[10, 0, 8, 1], &[10, 0, 8, 1]],
    // References without a row: past the bounds, of another kind or adapter, not listed, another's, twice.
    &[NAMELESS],
    &[LAMP, &[10, 1, 64, 1], NAMELESS],
    &[LAMP, LAMP, &[12, 0, 16, 1]],
    &[LAMP, LAMP, LAMP, &[10, 256, 7, 1]],
    &[&[10, 1, 256 + 7, 1]],
    &[&[10, 256 + 1, 7, 1]],
    &[&[14, 255, SIGN + 63, 2]],
    &[&[10, 1, 64 + 7, 1]],
    &[&[12, 1, 7, 1]],
    &[&[10, 0, 7, 1]],
    &[&[10, 2, 5, 1]],
    &[&[10, 7, 9, 1]],
    &[&[10, 9, 1, 1]],
    &[&[10, 1, 5, 2]],
];

/// Other triggers, and words that are none, before a reference without a row; with the small sheet.
const OTHERS: &[&[&[u32]]] = &[
    &[NAMELESS, LAMP, HTTP, HTTP],
    &[LAMP, &[11, 1, 7, 1, 5]],
    &[&[13, 0, 15]],
    &[&[15, 1, 1, 7, 1]],
    &[LAMP, LAMP, &[3, 1, 7, 1]],
    &[&[0]],
    &[&[22]],
    &[&[256 + 10, 1, 7, 1]],
    &[&[SIGN + 14, 255, 63, 1]],
    &[LAMP, LAMP, LAMP, &[10, 1, 7, 0]],
    &[&[10, 1, 7, 3], NAMELESS],
    &[&[12, 0, 15, 257]],
    &[&[14, 255, 63, 0]],
    &[&[10, 1, 7, 1, 1]],
    &[&[12, 0, 15, 1, 0, 0, 0, 0, 0, 256]],
    &[&[14, 255, 63, 1, 0, 0, 0, 0, 0, 0, 0, 1]],
];

/// Other triggers still, behind a lamp.
const MORE: &[&[u32]] = &[
    &[1, 1, 1, 7, 1, 1], &[2, 1, 7, 1, 1], &[3, 1, 7, 1, 1, 1], &[4, 1, 7, 1], &[5, 1, 7], &[6, 1, 7], &[7, 0, 127], &[8, 1, 0, 127], &[9, 1_000], &[16, 0, 1],
    &[17], &[18], &[19, 0, 1], &[21, 0, 1],
];

/// Counts of triggers and conditions, of which the first two are lamps, the third another trigger and the fourth without a row.
const COUNTS: &[[u32; 2]] =
    &[[0, 0], [5, 0], [NONE, 0], [257, 0], [SIGN + 1, 0], [0, 4], [5, NONE], [1, 1], [2, 4], [1, 5], [1, NONE], [2, 256], [3, 1], [4, 0], [2, 3]];

/// Rows of a sheet for lamp 4 on adapter 1: the first that is the only one with its name there, without a comma, is written.
const CHOICES: &[&str] = &[
    "lamp,1,4,A\nlamp,1,4,A\nlamp,1,4,B,C\nlamp,1,4,D\nlamp,1,4,E\n",
    "lamp,1,4,E E\nlamp,1,4,D\nlamp,1,4,F\n",
    "lamp,1,4,A\nlamp,1,5,A\n",
    "lamp,1,5,A\nlamp,1,4,A\n",
    "lamp,1,4,A\nlamp,1,4,A\n",
    "lamp,1,4,,\nlamp,1,4,a,b\n",
    "lamp,1,4,A\nlamp,1,4,b,c\nlamp,1,3,A\n",
    "lamp,0,4,A\nlamp,1,4,A\nlamp,7,4,A\ngroup,1,4,A\n",
    "input,1,9,B\nlamp,1,4,A\nlamp,1,4,B\n",
    "lamp,1,4,A\nlamp,1,3,a\r\n",
];

fn forward(rows: impl Into<Vec<u8>>) -> Conversion {
    Conversion { id: 0, party: 0, primary: 0, sheet: SHEET.into(), direction: Direction::Forward { rows: rows.into() } }
}

fn back(triggers: &[&[u32]]) -> Conversion {
    back_of(512, Flat::new(&triggers.iter().map(|words| Row::new(1, words)).collect::<Vec<_>>(), &[]))
}

fn back_of(size: usize, lists: Flat) -> Conversion {
    Conversion { direction: Direction::Back { size, lists: Box::new(lists) }, ..forward("") }
}

pub fn conversions() -> Vec<Conversion> {
    let mut conversions: Vec<Conversion> = ROWS.iter().map(|rows| forward(*rows)).collect();
    conversions.extend(MALFORMED.iter().map(|rows| Conversion { sheet: SMALL.into(), ..forward(*rows) }));
    conversions.extend(OF_KINDS.iter().map(|rows| Conversion { sheet: KINDS.into(), ..forward(*rows) }));
    conversions.extend(other_rows());
    conversions.extend(TRIGGERS.iter().map(|triggers| back(triggers)));
    conversions.extend(OTHERS.iter().map(|triggers| Conversion { sheet: SMALL.into(), ..back(triggers) }));
    conversions.extend(MORE.iter().map(|words| Conversion { sheet: SMALL.into(), ..back(&[LAMP, words]) }));
    conversions.extend(COUNTS.iter().map(|counts| {
        let triggers = [LAMP, GROUP, HTTP, NAMELESS].map(|words| Row::new(1, words));
        Conversion { sheet: SMALL.into(), ..back_of(512, Flat { counts: *counts, ..Flat::new(&triggers, &[Row::new(1, &[14]); 4]) }) }
    }));
    conversions.extend(CHOICES.iter().map(|rows| {
        let sheet = format!("primary,0\nadapter,0\nadapter,1\nadapter,7\nparty,7,3\n{rows}");
        Conversion { sheet: sheet.into(), ..back(&[&[10, 1, 4, 1]]) }
    }));
    conversions.extend(other_lists());
    conversions
}

/// Rows of other calls, sheets and names.
fn other_rows() -> Vec<Conversion> {
    let good = || forward("lamp,Till,1,on\n");
    let odd = |rows: &[u8]| Conversion { sheet: ODD_SHEET.to_vec(), ..forward(rows) };
    let name = |length: usize| "\u{e9}".repeat(length / 2) + &"a".repeat(length % 2);
    vec![
        Conversion { sheet: b"primary,0\n\n".to_vec(), primary: 7, ..forward("") },
        Conversion { sheet: b"primary,0\n\n".to_vec(), ..forward("lamp,,,on\n") },
        Conversion { primary: 7, ..forward("") },
        Conversion { primary: 7, ..forward("lamp,Till,1,on\nlamp,Till\n") },
        Conversion { party: 3, ..good() },
        // The primary has no part in what a name picks.
        Conversion { primary: 1, ..forward("lamp,Aisle,,on\n") },
        Conversion { primary: 2, ..forward("lamp,Far,,on\nlamp,Till,,on\n") },
        Conversion { party: 3, primary: 7, ..forward("lamp,Both,,on\nlamp,Both,7,off\n") },
        Conversion { party: 3, primary: 9, ..good() },
        odd(b"lamp,a,10,on\nlamp,\xff\0#,10,off\ngroup, b ,10,all_off\nlamp,\xc3\xa9,,on\n"),
        odd(b"lamp,\xff\0#,,off\ngroup, b ,,any_on\nlamp,a,10,on\n"),
        odd(b"lamp,Aisle 3,,on\n"),
        odd(b"lamp,\xfe\0#,,on\n"),
        odd(b"lamp,A,10,on\n"),
        odd(b"lamp,a,9,on\n"),
        Conversion { sheet: format!("primary,0\ngroup,3,0,{}", name(48)).into(), ..forward(format!("group,{},,any_on\n", name(48))) },
        forward(format!("lamp,{},,on\n", name(49))),
        forward(format!("lamp,{},,on\n", name(256 + 4))),
        Conversion { sheet: b"primary,0\nadapter,1\nlamp,1,4,A\nlamp,1,4,A\nlamp,2,4,A\nlamp,2,3,A\nlamp,1,7,B".to_vec(), ..forward("lamp,B,,on\nlamp,A,1,on\n") },
        Conversion { sheet: b"primary,0\nlamp,1,4,A\nlamp,1,4,A\nlamp,2,4,A\nlamp,2,3,A".to_vec(), ..forward("lamp,A,,off\n") },
        Conversion { sheet: b"primary,0\nadapter,0\nlamp,0,4,A\nlamp,0,4,A".to_vec(), ..forward("lamp,A,0,off\n") },
        forward("lamp,Till,1,on\n".repeat(20)),
        Conversion { sheet: ["primary,0\n", &"lamp,0,1,a\n".repeat(256)].concat().into(), ..forward("lamp,a,,on\n") },
    ]
}

/// Lists of other calls, sheets and buffers.
fn other_lists() -> Vec<Conversion> {
    let lists = |triggers: &[&[u32]]| Flat::new(&triggers.iter().map(|words| Row::new(1, words)).collect::<Vec<_>>(), &[]);
    let of_froms = Flat::new(&[0, 2, 3, NONE].map(|from| Row::new(from, LAMP)), &[]);
    let mut past = lists(&[LAMP]);
    past.triggers[1..].fill(Row { from: 9, words: [NONE; 12] });
    past.conditions.fill(Row { from: 1, words: [3; 12] });
    let all_wrong = || Conversion { primary: 7, ..back_of(511, Flat { counts: [5, 1], ..lists(&[HTTP]) }) };
    let long = format!("primary,9\nadapter,100\nadapter,255\ndevice,100,63,{0}\ndevice,255,0,{0}\n", "\u{e9}".repeat(24));
    let odd = |words: &[u32]| Conversion { sheet: ODD_SHEET.to_vec(), ..back(&[words]) };
    vec![
        back_of(512, of_froms),
        back_of(512, past),
        back_of(0, lists(&[LAMP])),
        back_of(272, lists(&[LAMP, NAMELESS])),
        back_of(511, lists(&[LAMP])),
        back_of(511, lists(&[NAMELESS])),
        back_of(513, lists(&[GROUP])),
        back_of(8_192, lists(&[DEVICE])),
        back_of(511, lists(&[HTTP])),
        Conversion { sheet: b"primary,0\n\n".to_vec(), ..all_wrong() },
        all_wrong(),
        Conversion { primary: 0, ..all_wrong() },
        Conversion { primary: 7, ..back(&[HTTP]) },
        Conversion { party: 3, ..back(&[LAMP]) },
        // The primary is written too, and needs to be listed; what another party has.
        Conversion { primary: 1, ..back(&[LAMP]) },
        Conversion { primary: 2, ..back(&[&[10, 2, 5, 1]]) },
        Conversion { sheet: b"primary,2\nlamp,2,5,Far".to_vec(), ..back(&[&[10, 2, 5, 1]]) },
        Conversion { party: 3, primary: 9, ..back(&[&[10, 7, 9, 2]]) },
        Conversion { party: 3, primary: 7, ..back(&[LAMP]) },
        back_of(512, Flat { counts: [4, 1], ..lists(&[LAMP, NAMELESS, LAMP, LAMP]) }),
        back_of(512, Flat { counts: [3, 2], ..lists(&[LAMP; 3]) }),
        // The longest rows, and names of other sheets.
        Conversion { sheet: long.clone().into(), ..back(&[&[14, 100, 63, 1][..]; 4]) },
        Conversion { sheet: long.into(), primary: 255, ..back(&[&[14, 255, 0, 1], &[14, 100, 63, 2]]) },
        odd(&[10, 10, 0, 1]),
        odd(&[10, 10, 1, 1]),
        odd(&[12, 10, 2, 1]),
        odd(&[10, 10, 4, 2]),
        odd(&[10, 10, 63, 1]),
    ]
}
