//! The texts that speed is measured on. Both lexers take each of them without a refusal.

/// A text with the name that the table gives it.
#[derive(Debug)]
pub struct Text {
    pub name: &'static str,
    pub text: String,
}

const SMALL: &str = "when lamp(\"Aisle\") turns on";

/// A closing rule as a fitter writes it.
const TYPICAL: &str = "# Closing: dim the shop floor once the last till is shut.
when timer(\"Closing delay\") fires
when at 21:30
when input(dev=\"Back door\", inst=2) is long_press_start
if time in sunset - 30m..23:45
and lamp(\"Till 4\", adapter=1).level >= 120   # still bright
and group(\"Sales floor\") any_on
and rule(\"Stocktaking\") is enabled
";

/// Eight tokens, with a comment of a usual length behind them.
const LARGE_LINE: &str = "  if last_fired(\"Closing sequence\") older than 90m";
const LARGE_COMMENT: &str = "   # the night crew may still be in the aisles, so that the lights stay on";
const LARGE_LINES: usize = 128;
const LARGE_WIDTH: usize = 128;

const STRINGS: &str = "when timer(\"Ladenschluß – Kühlregal süd, Gänge fünf bis zwölf, Nachtabsenkung 夜間照明\") fires
when rule(\"Éclairage réduit après la fermeture, rayon crèmerie et entrée côté marché 💡\") fails
if var(\"Освещение торгового зала после закрытия, холодильники и склад\") == \"закрыто\"
and rule(\"売り場の照明を閉店後に落とす、冷蔵棚と倉庫を除く\") is enabled
";

const BLANK: &str = "
        # ---------------------------------------------------------------------------------------------
        # Shop floor, closing time. Changed after the refit of the refrigerated aisle; ask the office
        # before you change the times below, since the alarm follows them by five minutes.
        # ---------------------------------------------------------------------------------------------

\t\t\t\t\t\t\t\t\r
        \u{A0}\u{3000}\u{2003}      # gaps as some editors put them

";

const NUMBERS: &str = "0 7 63 254 1023 1000000000 0.5 12.25 429496.7295 7:05 21:30 23:59 5ms 250ms 90s 0.7s 1.5s 30m 5m30s 12h
1193h 4294967.295s 0.001s 0.25h 1.125m 16 31 48 6:00 18:45 100ms 2.0625 3.1415 45m 8h 600s 0.05m 15 4095 65535 86400s
";

/// 128 lines of 128 bytes: as long as a text may be, and with as many tokens as it may have.
fn large() -> String {
    let line = format!("{LARGE_LINE}{LARGE_COMMENT}");
    format!("{line:<width$}\n", width = LARGE_WIDTH - 1).repeat(LARGE_LINES)
}

pub fn all() -> Vec<Text> {
    let text = |name, text: &str| Text { name, text: text.to_string() };
    vec![
        text("small", SMALL),
        text("typical", TYPICAL),
        Text { name: "large", text: large() },
        text("strings", STRINGS),
        Text { name: "blank", text: BLANK.repeat(4) },
        text("numbers", NUMBERS),
    ]
}

pub fn named(name: &str) -> Option<Text> {
    all().into_iter().find(|text| text.name == name)
}
