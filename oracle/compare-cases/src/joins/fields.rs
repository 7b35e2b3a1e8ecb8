//! In which single field two lines of an answer differ: two entries that are equal but for one value.

/// The fields of a line in which an entry of each sort can differ alone, by their places in it. Days that are not written are `on 1234567`, and
/// the data of an event are one field with it.
pub const TRIGGERS: &[(&str, &[usize])] = &[
    ("input_event instance", &[2, 3, 4, 5]), ("input_event group", &[2, 3, 4, 5]), ("input_occupancy", &[1, 2, 3, 4]),
    ("input_light_cross", &[1, 2, 3, 4, 5]), ("input_position_change", &[1, 2, 3]), ("input_device_power_cycled", &[0, 1, 2]),
    ("input_device_manual_config_changed", &[0, 1, 2]), ("at_time", &[1, 3]), ("at_solar", &[1, 2, 4]), ("every", &[1]), ("lamp_turns", &[1, 2, 3]),
    ("lamp_level_cross", &[1, 2, 3, 4]), ("group_becomes", &[1, 2, 3]), ("scene_recalled", &[1, 2]), ("device_online", &[1, 2, 3]),
    ("hcl_override", &[1]), ("hcl_override lamp", &[2, 3, 4]), ("hcl_override group", &[2, 3, 4]), ("hcl_override broadcast", &[3]),
    ("timer_fires", &[0, 1]), ("rule_fails", &[0, 1]), ("mqtt", &[1]), ("controller_starts", &[0]), ("controller_becomes_active", &[0]),
    ("http_trigger", &[0]),
];

pub const CONDITIONS: &[(&str, &[usize])] = &[
    ("time_in_range clock clock", &[2, 4]), ("time_in_range clock solar", &[2, 4, 5]), ("time_in_range solar clock", &[2, 3, 5]),
    ("time_in_range solar solar", &[2, 3, 5, 6]), ("day_in", &[1]), ("sun_is", &[1]), ("lamp_is", &[1, 2, 3]), ("lamp_level", &[0, 1, 2, 3]),
    ("lamp_cct", &[0, 1, 2, 3]), ("group_state", &[1, 2, 3]), ("input_occupancy", &[1, 2, 3, 4]), ("input_light", &[1, 2, 3, 4]), ("hcl_state", &[1]),
    ("hcl_state lamp", &[2, 3, 4]), ("hcl_state group", &[2, 3, 4]), ("hcl_state broadcast", &[3]), ("device_online", &[1, 2]),
    ("rule_enabled", &[0, 1]), ("last_fired_older_than", &[1, 2]), ("timer_running", &[0, 1]), ("var_compare text", &[1, 2, 4]),
    ("var_compare value", &[1, 2]),
];

/// The same of the value at the end of a line, counted from its first word.
pub const VALUES: &[(&str, &[usize])] = &[
    ("literal", &[1]), ("reading lamp", &[1, 2, 3]), ("reading group", &[1, 2, 3]), ("reading input", &[1, 2, 3, 4]), ("reading time", &[1]),
    ("reading sun", &[1]), ("reading event", &[1]), ("reading var", &[2]), ("offset lamp", &[1, 2, 3, 4]), ("offset group", &[1, 2, 3, 4]),
    ("offset input", &[1, 2, 3, 4, 5]), ("offset time", &[1, 2]), ("offset sun", &[1, 2]), ("offset event", &[1, 2]), ("offset var", &[2, 3]),
];

/// The conditions with a value, and where it begins.
pub const WITH_VALUES: &[(&str, usize)] = &[("lamp_level", 4), ("lamp_cct", 4), ("input_light", 5), ("var_compare", 4)];

fn fields(line: &str) -> Vec<String> {
    let mut fields: Vec<String> = line.replace(" raw ", " raw:").split(' ').map(String::from).collect();
    let timed = fields[0] == "at_time" && fields.len() == 2 || fields[0] == "at_solar" && fields.len() == 3;
    if timed {
        fields.extend(["on", "1234567"].map(String::from));
    }
    fields
}

/// The sort of a line by its first words.
fn sort(fields: &[String]) -> String {
    let word = |at: usize| fields[at].as_str();
    match word(0) {
        "input_event" | "hcl_override" | "hcl_state" => format!("{} {}", word(0), word(1)),
        "time_in_range" => {
            let second = if word(1) == "clock" { 3 } else { 4 };
            format!("time_in_range {} {}", word(1), word(second))
        }
        "var_compare" => format!("var_compare {}", word(3)),
        first => first.to_string(),
    }
}

/// Where the value of a condition begins, if it has one.
fn value_start(fields: &[String]) -> Option<usize> {
    let start = WITH_VALUES.iter().find(|(first, _)| *first == fields[0]).map(|(_, start)| *start)?;
    (fields[0] != "var_compare" || fields[3] == "value").then_some(start)
}

/// The sort of a value: its first word, and what it reads.
fn sort_of_value(fields: &[String]) -> String {
    match fields.get(1) {
        Some(reading) if fields[0] != "literal" => format!("{} {}", fields[0], reading.split('_').next().unwrap_or_default()),
        _ => fields[0].clone(),
    }
}

/// In what two lines differ alone: the sort of entry and the place of the field; and the sort of the value if it is in that. Nothing if they differ in
/// more, or not at all.
pub fn alone(one: &str, two: &str) -> Vec<String> {
    let (one, two) = (fields(one), fields(two));
    let differing: Vec<usize> = (0..one.len().min(two.len())).filter(|&at| one[at] != two[at]).collect();
    let [at] = differing[..] else { return Vec::new() };
    if one.len() != two.len() {
        return Vec::new();
    }
    match value_start(&one) {
        Some(start) if at >= start => {
            let value = sort_of_value(&one[start..]);
            vec![format!("{} value", one[0]), format!("value {value} {}", at - start)]
        }
        _ if at == 1 && ["hcl_override", "hcl_state"].contains(&one[0].as_str()) => vec![format!("{} 1", one[0])],
        _ => vec![format!("{} {at}", sort(&one))],
    }
}

/// Every such difference of entries, as `alone` names it.
pub fn all(table: &[(&str, &[usize])]) -> Vec<String> {
    table.iter().flat_map(|(sort, places)| places.iter().map(move |place| format!("{sort} {place}"))).collect()
}

#[cfg(test)]
mod tests {
    use super::*;

    #[test]
    fn single_differences_are_named() {
        for (one, two, wanted) in [
            ("every 1000", "every 1001", "every 1"),
            ("every 1000", "every 1000", ""),
            ("lamp_turns 0 1 on", "lamp_turns 0 2 off", ""),
            ("at_time 5", "at_time 5 on 12", "at_time 3"),
            ("at_solar sunset 0 on 1", "at_solar sunset 1 on 1", "at_solar 2"),
            ("input_event instance 0 1 2 press", "input_event instance 0 1 2 raw 5", "input_event instance 5"),
            ("input_event group 0 1 - press", "input_event group 0 1 0 press", "input_event group 4"),
            ("hcl_override lamp 0 1 starts", "hcl_override group 0 1 starts", "hcl_override 1"),
            ("hcl_override broadcast 0 starts", "hcl_override broadcast 0 clears", "hcl_override broadcast 3"),
            ("timer_fires x61", "rule_fails x61", "timer_fires 0"),
            ("lamp_level 0 1 eq literal 5", "lamp_level 0 1 eq literal 6", "lamp_level value, value literal 1"),
            ("lamp_level 0 1 eq reading time_now", "lamp_level 0 1 eq offset time_now 0", ""),
            ("var_compare x61 eq value offset input_light 0 1 2 5", "var_compare x61 eq value offset input_light 0 1 3 5", "var_compare value, value offset input 4"),
            ("var_compare x61 eq text x", "var_compare x61 eq text x62", "var_compare text 4"),
            ("time_in_range solar sunset 0 clock 5", "time_in_range solar sunset 0 clock 6", "time_in_range solar clock 5"),
        ] {
            assert_eq!(alone(one, two).join(", "), wanted, "{one} {two}");
        }
    }
}
