//! The plain importer (document 02, request 3): headers worked out by hand, files
//! of other tools, and every header near a good one beside a judge of this file.

use harness::compare::{check_met, check_output};
use harness::generate::header_file;
use harness::header::{put, unit_place, Header, COUNT_PLACE, LENGTH_PLACE};
use harness::plain::{hex, import, lines, run_text, values_after};
use harness::worked::headers::{self, UNCLEAR_UNITS};
use harness::worked::tally_line;
use std::collections::{BTreeMap, BTreeSet};

/// What a file is, in a few words, and its output; from the places of the header
/// and the standard library's own reading of numbers.
fn judge(file: &[u8]) -> (&'static str, String) {
    let bad_header = |why| (why, "FF10\n".to_string());
    if file.len() < 256 {
        return bad_header("under 256 bytes");
    }
    let count = match number(&file[252..256]) {
        Some(count) if (1..255).contains(&count) => count,
        Some(_) => return bad_header("number that is no count"),
        None => return bad_header("count not plain"),
    };
    match number(&file[184..192]) {
        Some(length) if length != 256 + 256 * count => bad_header("other length"),
        Some(length) if length > file.len() => bad_header("short file"),
        Some(_) => judge_units(&file[256 + 96 * count..256 + 104 * count]),
        None => bad_header("length not plain"),
    }
}

/// The same from the units of all signals.
fn judge_units(units: &[u8]) -> (&'static str, String) {
    let texts = units.chunks(8).map(String::from_utf8_lossy);
    let texts: Vec<String> = texts
        .map(|text| text.trim_end_matches(' ').to_string())
        .collect();
    let flows = texts
        .iter()
        .filter(|text| matches!(text.as_str(), "L/min" | "L/s"))
        .count();
    let lower = texts.iter().map(|text| text.to_ascii_lowercase());
    let alike = lower
        .filter(|text| text == "l/min" || text == "l/s")
        .count();
    match flows {
        _ if alike > flows => ("unclear unit", "FF11\n".to_string()),
        0 => ("no flow", "FF12\n".to_string()),
        1 => ("one flow", frames(1)),
        2..=30 => ("some flows", frames(flows)),
        31 => ("31 flows", frames(31)),
        32 => ("32 flows", frames(32)),
        _ => ("over 32 flows", "FF12\n".to_string()),
    }
}

/// A number with only spaces behind it. The library takes a plus sign too.
fn number(field: &[u8]) -> Option<usize> {
    let text = std::str::from_utf8(field).ok()?.trim_end_matches(' ');
    text.parse().ok().filter(|_| !text.starts_with('+'))
}

/// The lines for so many flows.
fn frames(flows: usize) -> String {
    let mut output = format!("01{:02X}\n", 2 * flows);
    for i in 0..flows {
        let (minute, second) = (128 + 2 * i, 129 + 2 * i);
        output += &format!("02{i:02X}00{minute:02X}{second:02X}\n08{i:02X}010001003C\n");
    }
    output
}

/// Compares the importer with the judge, and gives what the file is.
fn check(name: &str, file: &[u8]) -> &'static str {
    let (what, output) = judge(file);
    check_output(&format!("{name}: {what}"), &import(file), output.as_bytes());
    what
}

/// A header of so many signals, each with this unit.
fn equal(signals: usize, unit: &str) -> Header {
    Header::new(&vec![unit; signals])
}

#[test]
fn worked_headers() {
    for header in headers::all() {
        check_output(&header.name, &import(&header.text), &header.output);
        check(&header.name, &header.text);
    }
}

#[test]
fn files_of_other_tools() {
    for sample in headers::samples() {
        check_output(&sample.name, &import(&sample.text), &sample.output);
        check(&sample.name, &sample.text);
    }
}

/// The unclear units are all texts that are one of the two in lower case, and are
/// not one of the two.
#[test]
fn every_letter_case() {
    let mut cases = BTreeSet::new();
    for unit in [b"l/min", &b"l/s"[..]] {
        for upper in 0..1 << unit.len() {
            let case = |(place, byte): (usize, &u8)| match upper >> place & 1 {
                1 => byte.to_ascii_uppercase(),
                _ => *byte,
            };
            cases.insert(unit.iter().enumerate().map(case).collect::<Vec<u8>>());
        }
    }
    assert_eq!(cases.len(), 16 + 4);
    for unit in &cases {
        let flow = [&b"L/min"[..], b"L/s"].contains(&&unit[..]);
        let expected = if flow { "one flow" } else { "unclear unit" };
        assert_eq!(check("letter case", &Header::new(&[unit]).file()), expected);
        assert_eq!(flow, !UNCLEAR_UNITS.contains(&&unit[..]));
    }
}

/// Every number of signals with a right header, the last one a flow.
#[test]
fn every_count() {
    for signals in 0..=300 {
        let mut units = vec!["uV"; signals];
        units
            .iter_mut()
            .rev()
            .take(1)
            .for_each(|unit| *unit = "L/s");
        let what = check("count", &Header::new(&units).file());
        let good = (1..=254).contains(&signals);
        assert_eq!(what == "one flow", good, "{signals} signals: {what}");
    }
}

/// Every number of flows, alone and with another signal before each.
#[test]
fn every_count_of_flows() {
    for flows in 0..=126 {
        let alone = vec!["L/s"; flows.max(1)];
        check("flows", &Header::new(&alone).file());
        let among = [vec!["%"; 1], ["uV", "L/min"].repeat(flows)].concat();
        let what = check("flows among others", &Header::new(&among).file());
        let refused = ["no flow", "over 32 flows"].contains(&what);
        assert_eq!(refused, !(1..=32).contains(&flows), "{flows}: {what}");
    }
}

/// A file of one signal cut at every place, and longer ones next to multiples of
/// 256.
#[test]
fn every_length_of_a_file() {
    let mut file = equal(1, "L/min").file();
    file.extend(b"12345678");
    for length in 0..=file.len() {
        let what = check("cut", &file[..length]);
        assert_eq!(what == "one flow", length >= 512, "{length}: {what}");
    }
    for signals in [2, 3, 15, 32, 253, 254] {
        let mut file = equal(signals, "uV").file();
        put(&mut file, unit_place(signals, signals - 1), b"L/s     ");
        let whole = file.len();
        file.extend([b' '; 300]);
        for edge in (0..=file.len()).step_by(256) {
            for length in edge.saturating_sub(2)..=(edge + 2).min(file.len()) {
                let what = check("cut", &file[..length]);
                assert_eq!(what == "one flow", length >= whole, "{length}: {what}");
            }
        }
    }
}

/// What is met with every byte in every place of a field of so many bytes.
fn every_byte(file: &[u8], start: usize, width: usize) -> BTreeMap<&'static str, usize> {
    let mut met = BTreeMap::new();
    for place in start..start + width {
        for byte in 0..=255 {
            let mut file = file.to_vec();
            put(&mut file, place, &[byte]);
            let what = check(&format!("byte {byte:02X} at {place}"), &file);
            *met.entry(what).or_default() += 1;
        }
    }
    met
}

/// Tries every byte in every place of a field: so many of the files have one flow.
fn check_flows(name: &str, file: &[u8], start: usize, width: usize, right: usize) {
    let met = every_byte(file, start, width);
    let given = met.get("one flow").copied().unwrap_or(0);
    assert_eq!(given, right, "{name}: {met:?}");
}

/// A count of one signal with how many of the changes leave or make it right.
/// "12  " and "0   " become it by a space and by a digit.
#[test]
fn every_byte_of_a_count() {
    let one = equal(1, "L/s");
    for (count, right) in [
        ("1   ", 4),
        ("01  ", 4),
        ("0001", 4),
        ("12  ", 1),
        ("0   ", 2),
        ("    ", 1),
        (" 1  ", 1),
        ("+1  ", 1),
        ("254 ", 0),
        ("255 ", 0),
        ("9999", 0),
    ] {
        let file = one.clone().count(count.as_bytes()).file();
        check_flows(count, &file, COUNT_PLACE, 4, right);
    }
    let most = equal(254, "%").file();
    assert_eq!(every_byte(&most, COUNT_PLACE, 4)["no flow"], 4);
}

/// The same for a header length. " 512" becomes right by a zero.
#[test]
fn every_byte_of_a_length() {
    let one = equal(1, "L/min");
    for (length, right) in [
        ("512     ", 8),
        ("00000512", 8),
        ("0512    ", 8),
        ("511     ", 1),
        ("5120    ", 1),
        (" 512    ", 1),
        ("        ", 0),
        ("0000512 ", 8),
    ] {
        let file = one.clone().length(length.as_bytes()).file();
        check_flows(length, &file, LENGTH_PLACE, 8, right);
    }
}

/// Each letter has its other case, and a space more is dropped; no other byte
/// makes a unit of flow.
#[test]
fn every_byte_of_a_unit() {
    for (unit, flows, unclear) in [
        ("L/min", 8, 4),
        ("L/s", 8, 2),
        ("l/min", 1, 8 + 3),
        ("l/S", 0, 8 + 2),
        ("L/min.", 1, 0),
        (" L/min", 0, 0),
        ("L/ s", 0, 0),
        ("L/", 1, 1),
        ("L/ins", 0, 0),
    ] {
        let file = Header::new(&["uV", unit]).file();
        let met = every_byte(&file, unit_place(2, 1), 8);
        let given = |what| met.get(what).copied().unwrap_or(0);
        let given = (given("one flow"), given("unclear unit"));
        assert_eq!(given, (flows, unclear), "{unit}: {met:?}");
    }
}

/// How often each case is met at least in the random headers.
const LEAST: [(&str, usize); 14] = [
    ("under 256 bytes", 140),
    ("number that is no count", 950),
    ("count not plain", 1_900),
    ("other length", 1_600),
    ("length not plain", 1_400),
    ("short file", 1_800),
    ("unclear unit", 1_400),
    ("no flow", 1_100),
    ("one flow", 1_600),
    ("some flows", 2_500),
    ("31 flows", 800),
    ("32 flows", 1_500),
    ("over 32 flows", 700),
    ("254 signals", 1_500),
];

#[test]
fn random_headers() {
    let mut met: BTreeMap<&str, usize> = BTreeMap::new();
    for seed in 0..20_000 {
        let file = header_file(seed);
        let what = check(&format!("seed {seed}"), &file);
        *met.entry(what).or_default() += 1;
        if file.get(252..256) == Some(b"254 ") {
            *met.entry("254 signals").or_default() += 1;
        }
    }
    // Shown with `cargo test -- --nocapture`.
    println!("{met:#?}");
    check_met(&met, &LEAST);
}

/// "The panel is shown to accept every one": the plain solver does, and a value
/// per minute is then sixty times the one per second.
#[test]
fn panel_accepts_every_frame() {
    for flows in 1..=32 {
        let mut text = import(&equal(flows, "L/s").file());
        let replies = [vec!["0000"], ["0001", "0000"].repeat(flows)].concat();
        let output = [replies.join("\n"), tally_line(&replies)].join("\n") + "\n";
        assert_eq!(lines(&text).len(), 1 + 2 * flows);
        check_output("frames", &run_text(&text), output.as_bytes());
        for i in 0..flows as u8 {
            let value = 60 * (i32::from(i) + 1);
            let frame = [&[7, 2 * i][..], &value.to_be_bytes()].concat();
            text.extend((hex(&frame) + "\n").bytes());
        }
        let values: Vec<i32> = (1..=flows as i32).flat_map(|i| [60 * i, i]).collect();
        assert_eq!(values_after(&text), values);
    }
}
