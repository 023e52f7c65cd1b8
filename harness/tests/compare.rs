//! The comparison of a program with the plain solver.

use harness::compare::{compared, first_difference};
use harness::plain::run_text;

#[test]
fn equal_outputs_come_back() {
    let output = compared(b"0101\n05", |text| Ok(run_text(text)));
    assert_eq!(output, Ok(run_text(b"0101\n05")));
}

/// A reader that takes lower case: a line of one digit shows it by the offset.
#[test]
fn report_has_the_shortest_text_and_both_outputs() {
    let text = "0140\n".to_string() + &"0201008a\n05\n0405\n".repeat(50);
    let reader = |text: &[u8]| Ok(run_text(&text.to_ascii_uppercase()));
    let report = compared(text.as_bytes(), reader).expect_err("a difference");
    let parts = [
        "has 1 of 855 bytes",
        "program:\nFF010001\\n\nEE00000100000000000101\\n",
        "plain solver:\nFF010000\\n\nEE00000100000000000101\\n",
        "output line 0 (from 0): FF010001\\n in place of FF010000\\n",
    ];
    for part in parts {
        assert!(report.contains(part), "{part} in {report}");
    }
}

/// A text that cannot be made short is cut in the report.
#[test]
fn long_texts_are_cut() {
    let reader = |text: &[u8]| match text.len() {
        0..=6_999 => Ok(run_text(text)),
        _ => Ok(Vec::new()),
    };
    let report = compared(&[b'0'; 7_000], reader).expect_err("a difference");
    let parts = [
        "has 7000 of 7000 bytes",
        "... and 1000 more bytes",
        "no line in place of FF02\\n",
    ];
    for part in parts {
        assert!(report.contains(part), "{part} in {report}");
    }
}

/// A program that does not end well differs, whatever it wrote, and the text is
/// shortened all the same.
#[test]
fn report_has_the_bad_end() {
    let reader = |text: &[u8]| match text.contains(&b'4') {
        true => Err("it fell over".to_string()),
        false => Ok(run_text(text)),
    };
    let report = compared(b"0101\n0400\n05\n", reader).expect_err("a difference");
    let parts = ["has 1 of 13 bytes:\n4\nprogram:\nit fell over\nplain solver:\nFF010001\\n"];
    for part in parts {
        assert!(report.contains(part), "{part} in {report}");
    }
}

#[test]
fn differences_at_the_end_are_seen() {
    assert_eq!(first_difference(b"0000\nEE\n", b"0000\nEE\n"), None);
    let cases: [(&[u8], &str); 4] = [
        (b"0000\nEE", "output line 1 (from 0): EE in place of EE\\n"),
        (
            b"0000\n",
            "output line 1 (from 0): no line in place of EE\\n",
        ),
        (
            b"0000\nEE\n\n",
            "output line 2 (from 0): \\n in place of no line",
        ),
        (b"", "output line 0 (from 0): no line in place of 0000\\n"),
    ];
    for (given, difference) in cases {
        let found = first_difference(given, b"0000\nEE\n");
        assert_eq!(found.as_deref(), Some(difference));
    }
}
