use super::*;
use crate::vocabulary::{
    BESIDE_FORBIDDEN, CHARACTERS, DAYS, DECIMALS, DURATIONS, FORBIDDEN, ILL_FORMED, NO_DAYS, SIGNS, SPACES, TIMES, TOPICS, WORDS,
};
use cases::Direction;

const SEED: u64 = 7;
const MANY: u64 = 60_000;

fn contains(whole: &[u8], part: &[u8]) -> bool {
    whole.windows(part.len()).any(|window| window == part)
}

/// The parts of `wanted` that no text of the first `count` cases holds.
fn never(count: u64, wanted: Vec<Vec<u8>>) -> Vec<String> {
    let mut missing = wanted;
    for index in 0..count {
        let text = case(SEED, index).text;
        missing.retain(|part| !contains(&text, part));
    }
    missing.iter().map(|part| part.escape_ascii().to_string()).collect()
}

fn parts<T: AsRef<[u8]>>(lists: &[&[T]]) -> Vec<Vec<u8>> {
    lists.iter().flat_map(|list| list.iter().map(|part| part.as_ref().to_vec())).collect()
}

#[test]
fn the_same_seed_gives_the_same_cases() {
    for index in [0, 1, 17, 123_456, u64::MAX] {
        assert_eq!(case(SEED, index), case(SEED, index));
    }
    let differing = (0..1_000).filter(|&index| case(SEED, index) != case(SEED + 1, index)).count();
    assert!(differing > 990, "{differing}");
    let equal = (0..1_000).filter(|&index| case(SEED, index).text == case(SEED, index + 1).text).count();
    assert!(equal < 30, "{equal}");
}

#[test]
fn every_case_fits_the_replay_format() {
    for index in 0..MANY {
        let case = case(SEED, index);
        assert!(case.words <= MOST_WORDS && case.text.len() <= MOST_BYTES && case.sheet.len() <= MOST_BYTES);
        assert!(case.topics().len() <= MOST_BYTES);
        assert_eq!(case.id, index);
    }
}

#[test]
fn joins_follow_from_their_seed_and_fit_the_replay_format() {
    for index in (0..MANY / 4).chain([u64::MAX]) {
        let made = join(SEED, index);
        assert_eq!(made.id, index);
        assert!(made.words.iter().all(|&words| words <= MOST_WORDS));
        assert!([&made.texts[0], &made.texts[1], &made.sheet, &made.topics].iter().all(|bytes| bytes.len() <= MOST_BYTES), "{index}");
        if index % 16 == 0 {
            assert_eq!(made, join(SEED, index));
            assert_ne!(made, join(SEED + 1, index));
        }
    }
    assert!(stored_joins().iter().all(|join| well_formed(&join.sheet) || !join.sheet.starts_with(b"primary,0\nadapter")));
}

#[test]
fn lists_follow_from_their_seed_and_fit_the_replay_format() {
    // Without a reader all lists are made of words.
    let reads = Reads { call: |_| None, join: |_| None };
    for index in (0..MANY / 4).chain([u64::MAX]) {
        let made = writing(SEED, index, reads);
        assert_eq!(made.id, index);
        assert!(made.size <= MOST_WORDS && [&made.texts[0], &made.texts[1], &made.sheet].iter().all(|bytes| bytes.len() <= MOST_BYTES), "{index}");
        if index % 16 == 0 {
            assert_eq!(made, writing(SEED, index, reads));
            assert_ne!(made, writing(SEED + 1, index, reads));
        }
    }
}

#[test]
fn conversions_follow_from_their_seed_and_fit_the_replay_format() {
    for index in (0..MANY / 4).chain([u64::MAX]) {
        let made = conversion(SEED, index);
        assert_eq!(made.id, index);
        let fits = match &made.direction {
            Direction::Forward { rows } => rows.len() <= MOST_BYTES,
            Direction::Back { size, .. } => *size <= MOST_WORDS,
        };
        assert!(fits && made.sheet.len() <= MOST_BYTES, "{index}");
        if index % 16 == 0 {
            assert_eq!(made, conversion(SEED, index));
            assert_ne!(made, conversion(SEED + 1, index));
        }
    }
}

#[test]
fn every_kind_of_token_is_written() {
    assert_eq!(never(MANY, parts(&[WORDS, SIGNS, TIMES, DURATIONS, DECIMALS])), Vec::<String>::new());
}

#[test]
fn every_kind_of_character_and_of_ill_formed_bytes_is_written() {
    let characters: Vec<String> = SPACES.iter().chain(CHARACTERS).map(char::to_string).collect();
    assert_eq!(never(MANY, parts(&[&characters])), Vec::<String>::new());
    assert_eq!(never(MANY, parts(&[ILL_FORMED])), Vec::<String>::new());
}

#[test]
fn bounds_are_met_and_passed() {
    let bounds: Vec<String> = ["15", "16", "31", "32", "63", "64", "254", "255", "1023", "1024", "999ms", "1000ms", "1000000001"]
        .map(String::from).to_vec();
    assert_eq!(never(MANY, parts(&[&bounds])), Vec::<String>::new());
}

#[test]
fn every_forbidden_character_and_those_beside_stand_in_topics() {
    let planes = (1..17).flat_map(|plane| [0xFFFD, 0xFFFE, 0xFFFF].map(|offset| plane * 0x1_0000 + offset)).filter_map(char::from_u32);
    let alone = |topic: String| format!("\"{topic}\"");
    let characters = FORBIDDEN.iter().chain(BESIDE_FORBIDDEN).map(char::to_string).map(alone);
    let topics = TOPICS.iter().map(|topic| alone(topic.to_string()));
    let all: Vec<String> = characters.chain(topics).chain(planes.map(String::from)).collect();
    assert_eq!(never(MANY, parts(&[&all])), Vec::<String>::new());
}

#[test]
fn every_range_and_every_word_that_is_no_day_stand_in_sets() {
    let ranges: Vec<String> = DAYS.iter().flat_map(|from| DAYS.iter().map(move |to| format!("{from}..{to}"))).collect();
    let first = |word: &&str| [format!(" on {word}"), format!(" in {word}")];
    let behind: Vec<String> = NO_DAYS.iter().flat_map(|word| [format!(",{word}"), format!("..{word}")]).chain(DAYS.iter().flat_map(first)).collect();
    let fixed = ["mon,tue,wed,thu,fri,sat,sun", "...", " on 5", " on\"mon\"", ",when http", ",and sun", ",if sun"].map(String::from).to_vec();
    assert_eq!(never(MANY, parts(&[&ranges, &behind, &fixed])), Vec::<String>::new());
    assert!(NO_DAYS.iter().all(|word| !DAYS.contains(word)));
}

#[test]
fn texts_about_days_are_of_every_habit() {
    let with_days: Vec<Case> = (0..10_000).map(|index| case(SEED, index)).filter(|case| [&b" on mon"[..], b" in mon"].iter().any(|part| contains(&case.text, part))).collect();
    for habit in Habit::ALL {
        let count = with_days.iter().filter(|case| case.habit() == habit).count();
        assert!(count > 20, "{habit:?} {count}");
    }
    let most = |case: &Case| case.text.split(|&b| b == b',').count() > 500 && !contains(&case.text, b"dev");
    assert!((0..MANY).map(|index| case(SEED, index)).any(|case| most(&case)));
}

#[test]
fn topics_that_fit_are_known() {
    assert!(TOPICS.iter().all(|topic| topics::fits(topic.as_bytes())));
    assert!(FORBIDDEN.iter().all(|c| !topics::fits(c.to_string().as_bytes())));
    assert!(BESIDE_FORBIDDEN.iter().all(|c| topics::fits(c.to_string().as_bytes())));
    for (topic, fits) in [("", false), ("\"", false), (&"a".repeat(48), true), (&"a".repeat(49), false), (&"\u{e9}".repeat(24), true)] {
        assert_eq!(topics::fits(topic.as_bytes()), fits, "{topic}");
    }
    let mut rng = Rng::new(SEED, 0);
    let lengths: Vec<usize> = (0..5_000).map(|_| topics::any(&mut rng).len()).collect();
    assert!([0, 1, 47, 48, 49, 50].iter().all(|length| lengths.contains(length)));
}

#[test]
fn lent_topics_of_every_sort_come_up() {
    let lent: Vec<Vec<u8>> = (0..10_000).map(|index| case(SEED, index).topics().to_vec()).collect();
    let count = |sort: &dyn Fn(&[u8]) -> bool| lent.iter().filter(|topics| sort(topics)).count();
    let lines = |topics: &[u8]| topics.split(|&b| b == b'\n').filter(|line| !line.is_empty()).map(<[u8]>::to_vec).collect::<Vec<_>>();
    let different = |topics: &[u8]| lines(topics).into_iter().collect::<std::collections::BTreeSet<_>>().len();
    for number in 0..=10 {
        assert!(count(&|topics| different(topics) == number) > 150, "{number}");
    }
    assert!(count(&|topics| lines(topics).len() > different(topics)) > 1_000);
    assert!(count(&|topics| contains(topics, b"\n\n")) > 500);
    assert!(count(&|topics| topics.ends_with(b"\n")) > 1_000);
    assert!(count(&|topics| contains(topics, b"\r\n")) > 200);
    assert!(count(&|topics| std::str::from_utf8(topics).is_err()) > 200);
    assert!(count(&|topics| lines(topics).iter().any(|line| line.len() > 48)) > 200);
    assert!(count(&|topics| topics.len() == MOST_BYTES) > 2);
}

#[test]
fn calls_name_topics_that_they_lend() {
    let named = |case: &Case| case.topics().split(|&b| b == b'\n').any(|line| line.len() > 1 && contains(&case.text, &grammar::quoted(line)));
    let cases: Vec<Case> = (0..10_000).map(|index| case(SEED, index)).filter(|case| contains(&case.text, b"mqtt")).collect();
    assert!(cases.len() > 1_000 && cases.iter().filter(|case| named(case)).count() > 100, "{}", cases.len());
    assert!(cases.iter().any(|case| case.settings.is_none()));
}

#[test]
fn sizes_around_every_limit_come_up() {
    let (mut lengths, mut words, mut rows) = (Vec::new(), Vec::new(), Vec::new());
    for index in 0..MANY {
        let case = case(SEED, index);
        lengths.push(case.text.len());
        words.push(case.words);
        rows.push(case.sheet.iter().filter(|&&b| b == b'\n').count());
    }
    for length in [0, 16_383, 16_384, 16_385] {
        assert!(lengths.contains(&length), "text of {length}");
    }
    for count in [0, 5_119, 5_120, 5_121, 6_143, 6_144, 8_192] {
        assert!(words.contains(&count), "{count} words");
    }
    assert!(rows.contains(&513) && rows.contains(&514), "512 and 513 rows");
}

/// What the documents ask of a sheet, written plainly; the generator's good sheets meet it and its broken ones do not.
fn well_formed(sheet: &[u8]) -> bool {
    let lines = cases::lines(sheet);
    let (first, rows) = (lines[0].strip_prefix(b"primary,"), lines[1..].to_vec());
    let lines_fit = first.is_some_and(|n| number(n, 255)) && rows.iter().all(|row| row_fits(row));
    sheet.len() <= 16_384 && rows.len() <= 512 && lines_fit && parties_differ(&rows)
}

fn number(field: &[u8], last: usize) -> bool {
    let plain = !field.is_empty() && field.iter().all(u8::is_ascii_digit) && (field.len() == 1 || field[0] != b'0');
    plain && std::str::from_utf8(field).is_ok_and(|digits| digits.parse::<usize>().is_ok_and(|n| n <= last))
}

/// No adapter has two party rows.
fn parties_differ(rows: &[&[u8]]) -> bool {
    let parties = rows.iter().filter(|row| row.starts_with(b"party,"));
    let adapters: Vec<&[u8]> = parties.filter_map(|row| row.split(|&b| b == b',').nth(1)).collect();
    adapters.iter().enumerate().all(|(at, adapter)| !adapters[..at].contains(adapter))
}

fn row_fits(row: &[u8]) -> bool {
    match cases::fields(row)[..] {
        [b"adapter", adapter] => number(adapter, 255),
        [b"party", adapter, party] => number(adapter, 255) && number(party, 255),
        [kind, adapter, n, name] => {
            let last = match kind { b"group" => 15, b"lamp" | b"device" | b"input" => 63, _ => return false };
            number(adapter, 255) && number(n, last) && (1..=48).contains(&name.len()) && !name.iter().any(|b| b"\"\r\n".contains(b))
        }
        _ => false,
    }
}

#[test]
fn good_sheets_are_well_formed() {
    for index in 0..5_000 {
        let sheet = sheet::good(&mut Rng::new(SEED, index), 2);
        assert!(well_formed(&sheet.bytes), "{index}");
    }
    for (length, end) in (200..1_000).flat_map(|length| ["\n", "\r\n"].map(|end| (length, end))).chain([(16_384, "\n"), (16_384, "\r\n")]) {
        let sheet = sheet::of_length(length, end);
        assert!(sheet.len() == length && well_formed(&sheet) && sheet.ends_with(end.as_bytes()), "{length} {end:?}");
    }
}

#[test]
fn good_sheets_have_every_line_end_and_names_with_commas() {
    let sheets: Vec<Vec<u8>> = (0..3_000).map(|index| sheet::good(&mut Rng::new(SEED, index), 2).bytes).collect();
    let count = |sort: &dyn Fn(&[u8]) -> bool| sheets.iter().filter(|sheet| sort(sheet)).count();
    let raw = |sheet: &[u8]| sheet.split_inclusive(|&b| b == b'\n').map(|line| line.ends_with(b"\r\n")).collect::<Vec<_>>();
    assert!(count(&|sheet| !sheet.contains(&b'\r')) > 1_000);
    assert!(count(&|sheet| raw(sheet).len() > 1 && !raw(sheet).contains(&false)) > 300);
    assert!(count(&|sheet| raw(sheet).contains(&true) && raw(sheet).contains(&false)) > 300);
    assert!(count(&|sheet| sheet.ends_with(b"\r")) > 200 && count(&|sheet| !sheet.ends_with(b"\n") && !sheet.ends_with(b"\r")) > 300);
    let with_comma = |sheet: &[u8]| cases::lines(sheet).iter().any(|line| cases::fields(line).get(3).is_some_and(|name| name.contains(&b',')));
    assert!(count(&with_comma) > 1_000);
}

#[test]
fn broken_sheets_are_broken_in_every_way() {
    for which in 0..sheet::BREAKS {
        for index in 0..20 {
            let bytes = sheet::broken(&mut Rng::new(index, which as u64), which);
            assert!(!well_formed(&bytes), "{which} {index}");
        }
    }
}

/// What a party's call may see of a sheet: which adapters are the party's, and their rows.
fn seen(sheet: &[u8], party: u8) -> (Vec<bool>, Vec<Vec<u8>>) {
    let field = |row: &[u8], nth: usize| cases::fields(row).get(nth).map(|field| String::from_utf8_lossy(field).into_owned());
    let rows: Vec<&[u8]> = cases::lines(sheet).split_off(1);
    let of = |adapter: &str| {
        let row = rows.iter().find(|row| row.starts_with(format!("party,{adapter},").as_bytes()));
        row.map_or("0".to_string(), |row| field(row, 2).unwrap_or_default()) == party.to_string()
    };
    let own = (0..256).map(|adapter| of(&adapter.to_string())).collect();
    let theirs = |row: &&&[u8]| !row.starts_with(b"party,") && of(&field(row, 1).unwrap_or_default());
    (own, rows.iter().filter(theirs).map(|row| row.to_vec()).collect())
}

#[test]
fn a_sheet_beside_agrees_for_the_party_and_is_another_sheet() {
    let (mut seen_others, mut without_others, mut other) = (0, 0, 0);
    for case in (0..6_000).map(|index| case(SEED, index)).filter(|case| well_formed(&case.sheet)) {
        let beside = beside(&case);
        assert!(well_formed(&beside.sheet), "{}", case.id);
        assert_eq!((beside.party(), beside.primary(), beside.habit(), beside.topics()), (case.party(), case.primary(), case.habit(), case.topics()));
        assert_eq!((&beside.text, beside.words, beside.id), (&case.text, case.words, case.id));
        if case.sheet.len() < 1_000 {
            let view = seen(&case.sheet, case.party());
            assert_eq!(seen(&beside.sheet, case.party()), view, "{}", case.id);
            seen_others += usize::from(view.0.contains(&false));
            without_others += usize::from(!view.0.contains(&false));
        }
        other += usize::from(beside.sheet != case.sheet);
    }
    assert!(seen_others > 1_500 && without_others > 1_500 && other > 5_000, "{seen_others} {without_others} {other}");
    for index in 0..60 {
        let full = Case::new(index, 0, [], sheet::longest(&mut Rng::new(SEED, index)));
        assert!(full.sheet.len() == 16_384 && well_formed(&full.sheet) && well_formed(&super::beside(&full).sheet), "{index}");
    }
}

#[test]
fn calls_of_several_parties_and_primaries_come_up() {
    let cases: Vec<Case> = (0..10_000).map(|index| case(SEED, index)).collect();
    let count = |sort: fn(&&Case) -> bool| cases.iter().filter(sort).count();
    assert!(count(|case| case.party() != 0) > 1_000);
    assert!(count(|case| case.party() == 0 && case.settings.is_some() && contains(&case.sheet, b"party,")) > 1_000);
    assert!(count(|case| case.primary() != cases::own_primary(&case.sheet)) > 2_000);
    assert!(count(|case| case.settings.is_none() && contains(&case.sheet, b"party,")) > 200);
}

#[test]
fn texts_of_shop_calls_keep_to_the_profile_and_leave_it() {
    let shop: Vec<Case> = (0..20_000).map(|index| case(SEED, index)).filter(|case| case.habit() == Habit::Shop).collect();
    let count = |parts: &[&[u8]]| shop.iter().filter(|case| parts.iter().all(|part| contains(&case.text, part))).count();
    assert!(shop.len() > 4_500, "{}", shop.len());
    let (broadcast, event) = (count(&[b"broadcast"]), count(&[b"event."]));
    assert!(broadcast > 100 && broadcast < shop.len() / 4 && event > 50 && event < shop.len() / 4, "{broadcast} {event}");
    let (both, named, numbered) = (count(&[b"broadcast", b"event."]), count(&[b"lamp(\""]), count(&[b"lamp(1"]));
    assert!(both > 5 && named > 500 && numbered > 50, "{both} {named} {numbered}");
}

#[test]
fn most_sheets_are_good_and_most_texts_short() {
    let cases: Vec<Case> = (0..10_000).map(|index| case(SEED, index)).collect();
    let good = cases.iter().filter(|case| well_formed(&case.sheet)).count();
    let short = cases.iter().filter(|case| case.text.len() < 400).count();
    assert!((9_000..9_900).contains(&good), "{good}");
    assert!(short > 9_300, "{short}");
}

#[test]
fn the_sequences_differ_and_hold_whole_forms() {
    for length in 0..=2 {
        let mut seen: Vec<(cases::Habit, u8, Vec<u8>, Vec<u8>, Vec<u8>)> =
            exhaustive(length).map(|case| (case.habit(), case.party(), case.topics().to_vec(), case.text, case.sheet)).collect();
        assert_eq!(seen.len() as u64, exhaustive_count(length));
        seen.sort();
        seen.dedup();
        assert!(seen.len() as u64 > exhaustive_count(length) * 3 / 4, "{length}: {}", seen.len());
    }
    let whole: [&[u8]; 7] = [
        b"when every 5s", b"when controller starts if sun is up", b"when lamp( \"b\" ) turns on", b"when mqtt \"a\" is",
        b"when mqtt \"a\" when mqtt \"5\" foo", b"when at 7:05 on mon .. sun", b"when controller starts if day in sun",
    ];
    for text in whole {
        assert!((0..=3).any(|length| exhaustive(length).any(|case| case.text == text)), "{}", text.escape_ascii());
    }
}

#[test]
fn landmarks_stand_at_the_limits() {
    let landmarks = landmarks();
    assert!(landmarks.iter().any(|case| case.text.len() == 16_384));
    assert!(landmarks.iter().any(|case| case.text.len() == 16_385));
    let rows = |case: &Case| case.sheet.split(|&b| b == b'\n').filter(|line| !line.is_empty()).count() - 1;
    let with_sheet = || landmarks.iter().filter(|case| !case.sheet.is_empty());
    assert!(with_sheet().any(|case| rows(case) == 512) && with_sheet().any(|case| rows(case) == 513));
}
