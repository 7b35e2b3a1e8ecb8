//! Short texts that are refused on every sheet or on most, for each number but those of long texts, of the sheet's rows and of the lent topics: 1 to 4,
//! 19, 32 to 34, 53 and 66.

pub const WRONG_TEXTS: &[&str] = &[
    "when @", "when http trigger !", "when timer(\"a", "when every 1000000001s", "when at 24:00", "when at 7:5", "when every 1.23456", "when every 5x",
    "when every 1194h", "when every 0.0005s", "", "when", "when lamp", "when lamp(\"a\"", "when http", "when timer(\"a\") fails", "when foo", "when lamp(1) turns up",
    "when http trigger if foo", "when lamp(64) turns on", "when scene(16) recalled", "when lamp(1, adapter=256) turns on", "when timer(\"\") fires",
    "when rule(\"aaaaaaaaaaaaaaaaaaaaaaaaaaaaaaaaaaaaaaaaaaaaaaaaa\") fails", "when http trigger if var(\"v\") == \"aaaaaaaaaaaaaaaaa\"",
    "when lamp(1, adapter=77) turns on", "when input(1, 2, 3) is press", "when input(group=1, dev=1) is press", "when input(inst=1) is press",
    "when input(dev=1) is press", "when input(group=1) becomes vacant", "when http trigger if input(group=1) is vacant", "when lamp(\"nowhere\") turns on",
    "when every 999ms", "when at sunset + 2147483.648s",
    "when http trigger when http trigger when http trigger when http trigger when http trigger", "if sun is up",
    "when http trigger if sun is up and sun is up and sun is up and sun is up and sun is up", "when mqtt \"a\" is \"b\"", "when mqtt \"a\" is",
    "when http trigger foo", "when http trigger then", "when at 7:05 on foo", "when http trigger if day in mon, and", "when input(dev=1, dev=1, inst=2) is press",
    "when input(1, 2, inst=3) is press", "when mqtt \"\"", "when mqtt \"a+\"", "when mqtt \"aaaaaaaaaaaaaaaaaaaaaaaaaaaaaaaaaaaaaaaaaaaaaaaaa\"",
];
