//! The import program, `target/bin/edf_import`: headers worked out by hand, files
//! of other tools, changed and random headers beside the plain importer, and how
//! it treats its input and output.

use harness::compare::{check_met, check_output};
use harness::generate::header_file;
use harness::header::{put, unit_place, Header, COUNT_PLACE, LENGTH_PLACE};
use harness::plain::import;
use harness::program::{run_closing_output, IMPORT, PANEL};
use harness::worked::{headers, tally_line};
use std::collections::BTreeMap;

/// Compares the program with the plain importer, and gives the output.
fn check(name: &str, file: &[u8]) -> Vec<u8> {
    let output = import(file);
    let given = IMPORT.outcome(file);
    let given = given.unwrap_or_else(|end| panic!("{name}: {end}"));
    check_output(name, &given, &output);
    output
}

/// A header of so many flows.
fn flows(count: usize) -> Vec<u8> {
    Header::new(&vec!["L/min"; count]).file()
}

/// 254 signals, the last of them a flow: the longest header.
fn longest_header() -> Vec<u8> {
    let mut units = vec!["uV"; 254];
    units[253] = "L/s";
    Header::new(&units).file()
}

#[test]
fn worked_headers() {
    for header in headers::all() {
        check_output(&header.name, &IMPORT.run(&header.text), &header.output);
    }
}

/// The README's command among them, with the file as standard input.
#[test]
fn files_of_other_tools() {
    for sample in headers::samples() {
        check_output(
            &sample.name,
            &IMPORT.run_on_file(&sample.name),
            &sample.output,
        );
        check_output(&sample.name, &IMPORT.run(&sample.text), &sample.output);
    }
}

/// Every number of flows up to more than may be imported.
#[test]
fn every_count_of_flows() {
    for count in 1..=66 {
        let output = check("flows", &flows(count));
        assert_eq!(output == b"FF12\n", count > 32, "{count} flows");
    }
}

/// Numbers of signals near the edges, with a right header.
#[test]
fn counts_of_signals() {
    for count in [
        0, 1, 2, 9, 10, 11, 99, 100, 101, 253, 254, 255, 256, 257, 300,
    ] {
        let file = Header::new(&vec!["uV"; count]).file();
        let output = check("signals", &file);
        let good = (1..=254).contains(&count);
        assert_eq!(output == b"FF12\n", good, "{count} signals");
    }
}

/// A file of one signal cut at every place, and longer ones next to multiples of
/// 256.
#[test]
fn cut_files() {
    let mut file = flows(1);
    file.extend(b"12345678");
    for length in 0..=file.len() {
        let output = check("cut", &file[..length]);
        assert_eq!(output == b"FF10\n", length < 512, "{length}");
    }
    let longest = longest_header();
    for file in [flows(2), flows(15), flows(32), longest] {
        let edges = [
            256,
            512,
            file.len() / 512 * 256,
            file.len() - 256,
            file.len(),
        ];
        let long = [&file[..], &[b' '; 300]].concat();
        for length in edges.iter().flat_map(|edge| edge - 1..=edge + 1) {
            let output = check("cut", &long[..length]);
            assert_eq!(output == b"FF10\n", length < file.len(), "{length}");
        }
    }
}

/// Every byte in every place of a field of so many bytes; and how many of the
/// files are imported.
fn every_byte(file: &[u8], start: usize, width: usize) -> usize {
    let mut imported = 0;
    for place in start..start + width {
        for byte in 0..=255 {
            let mut file = file.to_vec();
            put(&mut file, place, &[byte]);
            let output = check(&format!("byte {byte:02X} at {place}"), &file);
            imported += !output.starts_with(b"FF") as usize;
        }
    }
    imported
}

/// A plain number of one digit and one with leading zeros: each byte may only be
/// what it is.
#[test]
fn every_byte_of_a_count() {
    let header = Header::new(&["L/s"]);
    for count in [&b"1   "[..], b"0001"] {
        let file = header.clone().count(count).file();
        assert_eq!(every_byte(&file, COUNT_PLACE, 4), 4);
    }
}

#[test]
fn every_byte_of_a_length() {
    let header = Header::new(&["L/s"]);
    assert_eq!(every_byte(&header.file(), LENGTH_PLACE, 8), 8);
}

#[test]
fn every_byte_of_a_unit() {
    let file = Header::new(&["uV", "L/min"]).file();
    assert_eq!(every_byte(&file, unit_place(2, 1), 8), 8);
}

/// The kind of an output: the refusal, or the number of flows.
fn kind(output: &[u8]) -> String {
    let lines = output.iter().filter(|&&byte| byte == b'\n').count();
    match lines / 2 {
        0 => String::from_utf8_lossy(output).trim_end().to_string(),
        1 => "1 flow".to_string(),
        2..=9 => "some flows".to_string(),
        10..=30 => "many flows".to_string(),
        flows => format!("{flows} flows"),
    }
}

/// How often each kind of output is met at least.
const LEAST: [(&str, usize); 8] = [
    ("FF10", 1_600),
    ("FF11", 260),
    ("FF12", 390),
    ("1 flow", 320),
    ("some flows", 290),
    ("many flows", 250),
    ("31 flows", 160),
    ("32 flows", 290),
];

/// Other headers than those of the plain importer's tests.
#[test]
fn random_headers() {
    let mut met: BTreeMap<String, usize> = BTreeMap::new();
    for seed in 100_000..104_000 {
        let output = check(&format!("seed {seed}"), &header_file(seed));
        *met.entry(kind(&output)).or_default() += 1;
    }
    // Shown with `cargo test -- --nocapture`.
    println!("{met:#?}");
    check_met(&met, &LEAST);
}

/// The frames go to the run program as they are, "the panel is shown to accept
/// every one": "0000" for the opening and each ratio, "0001" for each add.
#[test]
fn run_program_accepts_every_frame() {
    let among = Header::new(&["uV", "L/s", "%", "L/min", ""]).file();
    let samples = headers::samples().into_iter().map(|sample| sample.text);
    let files = (1..=32).map(flows).chain([among, longest_header()]);
    let mut imported = 0;
    for file in files.chain(samples) {
        let frames = IMPORT.run(&file);
        if frames.starts_with(b"FF") {
            continue;
        }
        let lines = frames.iter().filter(|&&byte| byte == b'\n').count();
        let replies = [vec!["0000"], ["0001", "0000"].repeat(lines / 2)].concat();
        let output = [replies.join("\n"), tally_line(&replies)].join("\n") + "\n";
        check_output("replies", &PANEL.run(&frames), output.as_bytes());
        imported += 1;
    }
    assert_eq!(imported, 32 + 2 + 4);
}

#[test]
fn input_in_pieces() {
    let behind = [&flows(3)[..], &[b'x'; 5_000]].concat();
    let short = flows(32)[..8_447].to_vec();
    for file in [flows(1), flows(32), behind, short, longest_header()] {
        let expected = import(&file);
        let sizes: [&[usize]; 9] = [
            &[255],
            &[256],
            &[257, 1],
            &[512],
            &[7, 1, 2, 1_300],
            &[4_095],
            &[4_096],
            &[1, 4_096],
            &[65_279, 1],
        ];
        for sizes in sizes {
            let output = IMPORT.run_in_pieces(&file, sizes);
            check_output(&format!("pieces {sizes:?}"), &output, &expected);
        }
    }
}

#[test]
fn input_in_single_bytes() {
    for file in [flows(1), flows(15), flows(1)[..511].to_vec()] {
        let output = IMPORT.run_in_pieces(&file, &[1]);
        check_output("single bytes", &output, &import(&file));
    }
}

/// A file that goes on behind its header is not read to its end, whatever its
/// header is.
#[test]
fn reading_stops_behind_the_longest_header() {
    for header in [longest_header(), flows(1), flows(33), b"0".to_vec()] {
        let file = [&header[..], &vec![b' '; 10_000_000]].concat();
        let seen = IMPORT.seen(&file);
        check_output("10 MB", &seen.output, &import(&file));
        assert!(!seen.all_taken, "10 MB were read");
    }
}

/// Bytes up to those that no header has, and over them.
#[test]
fn bytes_behind_the_longest_header() {
    let header = longest_header();
    assert_eq!(header.len(), 65_280);
    for length in [65_281, 65_535, 65_536, 65_537, 70_000, 131_072] {
        let mut file = header.clone();
        file.resize(length, b'L');
        let output = check("behind", &file);
        assert_eq!(output, b"0102\n0200008081\n0800010001003C\n");
    }
}

/// A read that fails is not taken for the end of the file: nothing is answered. A
/// folder can be opened, and cannot be read.
#[test]
fn failed_read_is_not_answered() {
    assert_eq!(IMPORT.run_on_file("/"), b"");
}

/// The same where the read fails after a header was there, whole or cut.
#[test]
fn failed_read_behind_a_header_is_not_answered() {
    let file = flows(2);
    for length in [1, 256, 511, 767, 768] {
        let output = IMPORT.run_before_a_failed_read(&file[..length]);
        check_output("failed read", &output, b"");
    }
}

/// What is read of the output before it is closed is right, and the program ends
/// (this comes back), whether the signal of a closed pipe ends it or it gets an
/// error from each write.
#[test]
fn program_ends_when_its_output_is_closed() {
    for file in [flows(1), flows(32), flows(33), longest_header(), Vec::new()] {
        let expected = import(&file);
        for bytes in [0, 1, 5, 100] {
            let ignoring_signal = IMPORT.through_shell(r#"trap '' PIPE; exec "$0""#);
            for command in [IMPORT.command(), ignoring_signal] {
                let start = run_closing_output(command, &file, bytes);
                let expected = &expected[..bytes.min(expected.len())];
                check_output("closed output", &start, expected);
            }
        }
    }
}

/// The same where there is no standard output from the start.
#[test]
fn program_ends_without_an_output() {
    for file in [flows(1), flows(32), flows(33), Vec::new()] {
        let command = IMPORT.through_shell(r#"exec "$0" >&-"#);
        let output = run_closing_output(command, &file, usize::MAX);
        check_output("no output", &output, b"");
    }
}
