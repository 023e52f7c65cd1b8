//! The proved solver on tallies that are not zero. With `--features standin` the
//! same of the plain solver in its place. Every expected value is worked out by hand.

use panel_bench::sides::{run_proved, Tally};

/// "A count that is lent at 16,777,215 or more stays unchanged."
const CAP: u32 = 16_777_215;

/// What a buffer holds before a run.
const FILLER: u8 = b'~';

/// A tally of these counts and last refusal.
fn tally(lines: u32, accepted: u32, refused: u32, last: u8) -> Tally {
    Tally {
        lines,
        accepted,
        refused,
        last,
    }
}

/// Runs a text on a buffer that is longer than its output: the output and the
/// tally are those given, and the rest of the buffer is as it was.
fn check(text: &str, lent: Tally, output: &str, after: Tally) {
    let mut out = vec![FILLER; output.len() + 10];
    let mut tally = lent;
    let answer = run_proved(text.as_bytes(), &mut out, &mut tally);
    assert_eq!(answer, output.len(), "{text:?} from {lent:?}");
    assert_eq!(
        String::from_utf8_lossy(&out),
        output.to_string() + "~~~~~~~~~~",
        "{text:?} from {lent:?}"
    );
    assert_eq!(tally, after, "{text:?} from {lent:?}");
}

/// 1,003, 602 and 401 are 3EB, 25A and 191.
#[test]
fn ordinary_counts() {
    check(
        "0102\n0102\n05\n",
        tally(1_000, 600, 400, 7),
        "0000\nFF03\n0002008010018011\nEE0003EB00025A00019103\n",
        tally(1_003, 602, 401, 3),
    );
}

/// Each count has a place of its own in the line. 66,051 is 010203, 263,430 is
/// 040506 and 460,809 is 070809.
#[test]
fn counts_of_three_bytes() {
    check(
        "",
        tally(66_051, 263_430, 460_809, 10),
        "EE0102030405060708090A\n",
        tally(66_051, 263_430, 460_809, 10),
    );
}

/// The second line finds the count of lines at the cap.
#[test]
fn one_below_the_cap() {
    check(
        "0101\n0101\n",
        tally(CAP - 1, CAP - 1, CAP - 1, 0),
        "0000\nFF03\nEEFFFFFFFFFFFFFFFFFF03\n",
        tally(CAP, CAP, CAP, 3),
    );
    check(
        "0101\n",
        tally(CAP - 2, CAP - 2, CAP - 2, 0),
        "0000\nEEFFFFFEFFFFFEFFFFFD00\n",
        tally(CAP - 1, CAP - 1, CAP - 2, 0),
    );
}

#[test]
fn at_the_cap() {
    check(
        "0101\n0101\n05\n",
        tally(CAP, CAP, CAP, 11),
        "0000\nFF03\n0001008010\nEEFFFFFFFFFFFFFFFFFF03\n",
        tally(CAP, CAP, CAP, 3),
    );
}

/// Unchanged in the record, FFFFFF in the line.
#[test]
fn above_the_cap() {
    check(
        "0101\n0101\n",
        tally(CAP + 1, u32::MAX, 20_000_000, 2),
        "0000\nFF03\nEEFFFFFFFFFFFFFFFFFF03\n",
        tally(CAP + 1, u32::MAX, 20_000_000, 3),
    );
}

/// A count at the cap holds back no other.
#[test]
fn each_count_for_itself() {
    check(
        "0101\n0400\n0101\n",
        tally(CAP, 5, u32::MAX, 0),
        "0000\n0000\nFF03\nEEFFFFFF000007FFFFFF03\n",
        tally(CAP, 7, u32::MAX, 3),
    );
    check(
        "0101\n0400\n0101\n",
        tally(0, CAP + 1, CAP - 1, 0),
        "0000\n0000\nFF03\nEE000003FFFFFFFFFFFF03\n",
        tally(3, CAP + 1, CAP, 3),
    );
}

/// A last refusal stays until there is another one, over texts too: each text meets
/// an unopened panel, and the tally goes on.
#[test]
fn last_refusal_stays() {
    let mut tally = tally(4, 2, 2, 9);
    let steps = [
        ("0101\n0400\n", "0000\n0000\nEE00000600000400000209\n"),
        (
            "05\n0100\n0101\n",
            "FF04\nFF05\n0000\nEE00000900000500000405\n",
        ),
        ("", "EE00000900000500000405\n"),
        ("0101", "0000\nEE00000A00000600000405\n"),
        ("01g1", "FF010002\nEE00000B00000600000501\n"),
    ];
    for (text, output) in steps {
        let mut out = vec![FILLER; output.len()];
        let answer = run_proved(text.as_bytes(), &mut out, &mut tally);
        assert_eq!(answer, output.len(), "{text:?}");
        assert_eq!(String::from_utf8_lossy(&out), output, "{text:?}");
    }
    assert_eq!(tally, self::tally(11, 6, 5, 1));
}

#[test]
fn empty_text() {
    let lent = [
        (tally(1, 2, 3, 4), "EE00000100000200000304\n"),
        (tally(CAP, CAP, CAP, 12), "EEFFFFFFFFFFFFFFFFFF0C\n"),
        (tally(CAP + 1, 0, u32::MAX, 255), "EEFFFFFF000000FFFFFFFF\n"),
    ];
    for (lent, output) in lent {
        check("", lent, output, lent);
    }
}

/// "TextTooLong is checked before any line and changes nothing."
#[test]
fn text_too_long() {
    for text in [vec![b'\n'; 65_536], b"0101\n".repeat(20_000)] {
        for lent in [tally(1, 2, 3, 4), tally(CAP + 1, CAP, CAP - 1, 0)] {
            for len in [0, 5, 400_000] {
                let mut out = vec![FILLER; len];
                let mut tally = lent;
                assert_eq!(run_proved(&text, &mut out, &mut tally), 0);
                assert!(out.iter().all(|&byte| byte == FILLER));
                assert_eq!(tally, lent);
            }
        }
    }
}

/// 65,535 empty lines, the longest text: the lines reach the cap with the last one,
/// the refused with the last but one. Each reply has nine characters, LF included.
#[test]
fn longest_text() {
    let output = "FF010000\n".repeat(65_535) + "EEFFFFFF000007FFFFFF01\n";
    check(
        &"\n".repeat(65_535),
        tally(CAP - 65_535, 7, CAP - 65_534, 0),
        &output,
        tally(CAP, 7, CAP, 1),
    );
}

/// As many first bytes as fit, and nothing behind the buffer; the answer and the
/// tally are those of the whole output.
#[test]
fn buffer_too_short() {
    let output = b"0000\nFF03\n0002008010018011\nEE0003EBFFFFFF00019103\n";
    assert_eq!(output.len(), 50);
    for len in 0..=50 {
        let mut around = [FILLER; 70];
        let mut tally = tally(1_000, CAP, 400, 7);
        let answer = run_proved(b"0102\n0102\n05\n", &mut around[10..10 + len], &mut tally);
        assert_eq!(answer, 50);
        assert_eq!(around[..10], [FILLER; 10]);
        assert_eq!(around[10..10 + len], output[..len]);
        assert!(around[10 + len..].iter().all(|&byte| byte == FILLER));
        assert_eq!(tally, self::tally(1_003, CAP, 401, 3));
    }
}

/// The record has the four fields in their order, and nothing beside it is written.
#[test]
fn nothing_beside_the_record() {
    assert_eq!(std::mem::size_of::<Tally>(), 16);
    let mut records = [tally(1, 2, 3, 4); 3];
    run_proved(b"0101\n0101\n0101\n", &mut [], &mut records[1]);
    let beside = tally(1, 2, 3, 4);
    assert_eq!(records, [beside, tally(4, 3, 5, 3), beside]);
}
