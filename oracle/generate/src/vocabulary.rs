//! The words, signs, numbers, strings and characters that texts are made of.

/// Every word of the grammar, and some that fit nowhere.
pub const WORDS: &[&str] = &[
    "when", "if", "and", "timer", "fires", "rule", "fails", "controller", "starts", "becomes", "active", "http",
    "trigger", "every", "at", "scene", "recalled", "adapter", "device", "goes", "offline", "comes", "online", "group",
    "any_on", "all_off", "hcl", "override", "clears", "for", "lamp", "turns", "on", "off", "level", "crosses", "above",
    "below", "input", "power", "cycled", "manual", "config", "changed", "is", "dev", "inst", "type", "button",
    "absolute", "occupancy", "light", "occupied", "vacant", "position", "changes", "press", "release", "short_press",
    "double_press", "long_press_start", "long_press_repeat", "long_press_stop", "button_free", "button_stuck",
    "movement", "no_movement", "any_event", "event", "data", "sunrise", "sunset", "broadcast", "running", "enabled",
    "last_fired", "older", "than", "sun", "up", "down", "time", "in", "overridden", "cct", "var", "is_on",
    "last_level", "member_count", "last_event_age", "now", "hour", "minute", "weekday", "rise", "set", "is_up",
    "value", "instance", "option", "mqtt", "day", "mon", "tue", "wed", "thu", "fri", "sat", "do", "foo", "When", "_", "x1", "Mon",
    "monday",
];

pub const DAYS: &[&str] = &["mon", "tue", "wed", "thu", "fri", "sat", "sun"];

/// Words that are no day: near ones, and those that may stand behind a set or begin something else.
pub const NO_DAYS: &[&str] = &[
    "foo", "Mon", "MON", "mOn", "moN", "Sun", "sUN", "monday", "sunday", "mo", "tu", "tues", "thur", "m", "sunset", "sunrise", "mon_", "_mon", "mon1", "xmon",
    "onm", "mom", "sut", "fry", "wet", "day", "days", "weekday", "on", "in", "when", "if", "and", "is", "at", "time", "lamp", "up",
];

/// The signs in the order of the token kinds 7 to 22.
pub const SIGNS: &[&str] = &["(", ")", "{", "}", ",", ".", "..", "=", "==", "!=", ">=", "<=", ">", "<", "+", "-"];

/// Integers at and around every bound; the last three are refused by the lexer.
pub const INTEGERS: &[&str] = &[
    "0", "1", "2", "15", "16", "31", "32", "63", "64", "254", "255", "256", "1023", "1024", "999", "1000", "00", "007",
    "65535", "65536", "4096", "257", "288", "999999999", "1000000000", "00000000000000000000001", "1000000001",
    "2147483648", "18446744073709551617",
];

pub const TIMES: &[&str] = &["7:05", "07:05", "0:00", "00:00", "23:59", "12:34", "9:59", "19:00", "3:01"];

pub const WRONG_TIMES: &[&str] = &[
    "24:00", "23:60", "12:60", "007:05", "005:05", "5:", "5:5", "5:055", "99:99", "1000000001:00", "7:1000000001",
    "000:00", "100:00", "24:0",
];

/// Durations that the lexer takes, from none at all to the longest; the last ones, and some others, only since document
/// 02 §2.
pub const DURATIONS: &[&str] = &[
    "0s", "0ms", "1ms", "999ms", "1000ms", "1001ms", "0.999s", "1s", "1.0s", "5s", "1.5s", "0.001s", "5m", "0.5m", "1h",
    "0.25h", "1193h", "4294967.295s", "71582.78825m", "1000000000ms", "2147483.647s", "2147483.648s", "2147483.649s",
    "596h", "597h", "0.0000000000000000000s", "1.0000000000000000000ms", "18.000000000000000000ms",
    "1844.0000000000000000s", "18446.000000000000000s", "1844674.0000000000000s", "30744.0000000000m",
    "512.0000000000h", "05s", "00.5s", "1.000000000s", "0.1000000000s", "35791.3941m", "35791.39415m",
    "1.500000000s", "4294967.295000000s", "71582.788250000m", "1193.046470000h", "1844.0000000000000s",
    "1845.0000000000000s",
    "0.00000000000000000000s", "1.0000000000000000000s", "1.00000000000000000000h", "2.0000000000000000000ms",
    "19.000000000000000000ms", "1845.0000000000000000s", "18447.000000000000000s", "1844675.0000000000000s",
    "30745.0000000000m", "513.0000000000h",
];

/// Durations that the lexer refuses: with 12, 16, 17 or 18.
pub const WRONG_DURATIONS: &[&str] = &[
    "0.0005s", "0.5ms", "1.5ms", "0.00001m", "0.0000001h", "1.0001s", "4294967.296s", "1194h", "71582.78827m",
    "1000000000s", "1000000000h", "1000000001ms", "4294967295ms", "0.00000000000000000001s", "5124.095576030h",
    "5124.095576031h", "307445734.561825m", "307445734.561826m", "0.0000000001000000000s", "0.1000000001s", "5x",
    "18446744.073709551s", "18446744.073709552s", "1.5000000000s", "1.1000000001s", "1000000000.000000001h",
    "1000000000.00001h", "1000000000.0000h", "0.00000000000000000000000000001s", "1.00000000000000000000x",
    "4294967.2951s", "4294968.00000000000000000000s", "35791.39413m",
    "5sec", "5S", "5MS", "5hs", "5msm", "0.5d", "5mm", "0.00000000000000000000x", "1000000001x", "1.5min", "5sms",
];

/// Decimals without a unit: tokens that no form takes, and some that the lexer refuses with 12 or 15.
pub const DECIMALS: &[&str] = &[
    "0.5", "0.0", "1.2345", "0.0001", "429496.7295", "429496.7294", "429496.7", "1.0000", "00.5", "429496.7296",
    "429496.72951", "429496.8", "429497.0", "1.23456", "0.00000", "0.12345678901", "1000000000.0", "1000000000.00000",
    "1000000001.0", "1.1000000001", "0.1000000000",
];

/// Names that a sheet may have: none holds a quote, LF or CR, and none is longer than 48 bytes.
pub const NAMES: &[&[u8]] = &[
    b"a", b"b", b"c", b"Aisle", b"Till", b"aisle", b"Aisle 2", b"Aisle 3, cold", b"Aisle 4, cold", b"cold", b" cold", b",", b"a,", b",a",
    b"a,b,c", b"0,1,a", b"lamp,0,1,a", b"aaaaaaaaaaaaaaaaaaaaaaaaaaaaaaaaaaaaaaaaaaaaaaa,", b"Aisle 3", b"\0", b"a\0b", "\u{e9}".as_bytes(),
    "\u{65e5}\u{672c}\u{8a9e}".as_bytes(), "\u{1f4a1}".as_bytes(), b"when", b"(", b"# no comment", b" ", b"\t", b"1",
    b"aaaaaaaaaaaaaaaaaaaaaaaaaaaaaaaaaaaaaaaaaaaaaaaa", b"aaaaaaaaaaaaaaaaaaaaaaaaaaaaaaaaaaaaaaaaaaaaaaab",
    b"aaaaaaaaaaaaaaaaaaaaaaaaaaaaaaaaaaaaaaaaaaaaaaa",
    "\u{e9}\u{e9}\u{e9}\u{e9}\u{e9}\u{e9}\u{e9}\u{e9}\u{e9}\u{e9}\u{e9}\u{e9}\u{e9}\u{e9}\u{e9}\u{e9}\u{e9}\u{e9}\u{e9}\u{e9}\u{e9}\u{e9}\u{e9}\u{e9}".as_bytes(),
    "\u{3000}".as_bytes(), "A\u{10ffff}".as_bytes(), "\u{2028}".as_bytes(),
];

/// Names that a sheet may have and no text can, since they are not UTF-8.
pub const RAW_NAMES: &[&[u8]] = &[b"\xff", b"a\xc3", b"\x80", b"\xed\xa0\x80", b"\xc0\xaf", b"\xf5\x80\x80\x80"];

/// Strings of 49 bytes: one too many for a name, in single bytes and in wider characters.
pub const LONG_NAMES: &[&str] = &[
    "aaaaaaaaaaaaaaaaaaaaaaaaaaaaaaaaaaaaaaaaaaaaaaaaa",
    "a\u{e9}\u{e9}\u{e9}\u{e9}\u{e9}\u{e9}\u{e9}\u{e9}\u{e9}\u{e9}\u{e9}\u{e9}\u{e9}\u{e9}\u{e9}\u{e9}\u{e9}\u{e9}\u{e9}\u{e9}\u{e9}\u{e9}\u{e9}\u{e9}",
];

/// Texts that a `var` is compared with: up to 16 bytes, and then 17.
pub const VAR_TEXTS: &[&str] = &[
    "", "a", "on", "aaaaaaaaaaaaaaa", "aaaaaaaaaaaaaaaa", "\u{1f4a1}\u{1f4a1}\u{1f4a1}\u{1f4a1}", "a\rb", "\u{0}",
    "12345678\u{e9}\u{e9}\u{e9}\u{e9}",
];
pub const LONG_VAR_TEXTS: &[&str] = &["aaaaaaaaaaaaaaaaa", "a\u{1f4a1}\u{1f4a1}\u{1f4a1}\u{1f4a1}", "12345678123456789012"];

/// Topics that a text may have; some differ in a byte, a case or a blank.
pub const TOPICS: &[&str] = &[
    "a", "b", "c", "d", "e", "f", "g", "h", "i", "j", "k", "l", "A", "a ", " a", "ab", "a/b", "/", "$SYS", "*", "mqtt", "is", "\u{e9}",
    "e\u{301}", "shop/tills/closing",
];

/// Characters that no topic has: the ends of the classes and some between; of the planes' ends those of the first.
pub const FORBIDDEN: &[char] = &[
    '+', '#', '\u{0}', '\u{1}', '\u{9}', '\u{d}', '\u{1e}', '\u{1f}', '\u{7f}', '\u{80}', '\u{85}', '\u{9e}', '\u{9f}', '\u{fdd0}',
    '\u{fdd1}', '\u{fde0}', '\u{fdee}', '\u{fdef}', '\u{fffe}', '\u{ffff}',
];

/// Characters beside those, and some that look like them.
pub const BESIDE_FORBIDDEN: &[char] = &[
    ' ', '!', '$', '*', ',', '~', '}', '\u{a0}', '\u{a1}', '\u{ad}', '\u{600}', '\u{200b}', '\u{2028}', '\u{feff}', '\u{fdcf}', '\u{fdf0}',
    '\u{fffc}', '\u{fffd}', '\u{10000}', '\u{d7ff}', '\u{e000}', '\u{ff0b}',
];

/// Lent lines that no text could name, or that look like another.
pub const LENT_ODDITIES: &[&[u8]] = &[
    b"\r", b"a\r", b"b\r", b"\r\r", b"+", b"a+", b"#", b"\0", b"\t", b"\x7f", b"\"", b"\"a\"", "\u{85}".as_bytes(), "\u{fdd0}".as_bytes(),
    "\u{10ffff}".as_bytes(), b"\xff", b"a\xc3", b"\x80", b"\xed\xa0\x80", b"\xc0\xaf",
    b"aaaaaaaaaaaaaaaaaaaaaaaaaaaaaaaaaaaaaaaaaaaaaaaaa",
    b"aaaaaaaaaaaaaaaaaaaaaaaaaaaaaaaaaaaaaaaaaaaaaaaaaaaaaaaaaaaa",
];

/// The 25 characters of White_Space.
pub const SPACES: &[char] = &[
    '\u{9}', '\u{a}', '\u{b}', '\u{c}', '\u{d}', '\u{20}', '\u{85}', '\u{a0}', '\u{1680}', '\u{2000}', '\u{2001}',
    '\u{2002}', '\u{2003}', '\u{2004}', '\u{2005}', '\u{2006}', '\u{2007}', '\u{2008}', '\u{2009}', '\u{200a}',
    '\u{2028}', '\u{2029}', '\u{202f}', '\u{205f}', '\u{3000}',
];

/// Characters at the ends of the UTF-8 lengths, and some that look like white space or a digit and are neither.
pub const CHARACTERS: &[char] = &[
    '\u{0}', '\u{1c}', '\u{1f}', '\u{7f}', '\u{80}', '\u{84}', '\u{86}', '\u{7ff}', '\u{800}', '\u{d7ff}', '\u{e000}',
    '\u{ffff}', '\u{10000}', '\u{10ffff}', '\u{feff}', '\u{200b}', '\u{180e}', '\u{2060}', '\u{e9}', '\u{661}',
    '\u{ff11}', '\u{ff41}', '\u{b2}', '\u{1fff}', '\u{200e}', '\u{3001}', '\u{fffd}',
];

/// Bytes that are not UTF-8, of every kind; those that are cut short are so before whatever follows them.
pub const ILL_FORMED: &[&[u8]] = &[
    b"\x80", b"\xbf", b"\xc0\x80", b"\xc0\xaf", b"\xc1\xbf", b"\xe0\x80\x80", b"\xe0\x9f\xbf", b"\xed\xa0\x80",
    b"\xed\xbf\xbf", b"\xed\xa0\x80\xed\xb0\x80", b"\xf0\x80\x80\x80", b"\xf0\x8f\xbf\xbf", b"\xf4\x90\x80\x80",
    b"\xf5\x80\x80\x80", b"\xf7\xbf\xbf\xbf", b"\xf8\x88\x80\x80\x80", b"\xfc\x84\x80\x80\x80\x80", b"\xfe", b"\xff",
    b"\xc2", b"\xdf", b"\xe2\x82", b"\xe2", b"\xef\xbf", b"\xf0\x9f\x92", b"\xf0\x9f", b"\xf0", b"\xf4\x8f\xbf",
    b"\xc3\xa9\xa9", b"\xc2\xc2\x80", b"\xe2\x82\xc0", b"\xf0\x9f\x92\x41", b"\xe0\xa0\x7f", b"\xc2\x7f", b"\xc2\xc0",
];

/// Bytes that mean something to the lexer, for damage by single bytes.
pub const BYTES: &[u8] = b"\"#!=<>().,:{}+-_ \n\r\t0159ahmswxZ@$\\'&|*/;?[]^`~%\0\x7f\x80\xbf\xc3\xe2\xf0\xff";
