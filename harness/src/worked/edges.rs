//! The edges of what a text can be: ends of lines, lengths of lines, and the
//! limit of the text.

use super::Worked;

/// A text with its output lines.
pub(super) fn worked(name: &str, text: impl Into<Vec<u8>>, output: &[&str]) -> Worked {
    Worked {
        name: name.to_string(),
        text: text.into(),
        output: (output.join("\n") + "\n").into_bytes(),
    }
}

/// Every text of this file.
pub fn all() -> Vec<Worked> {
    [ends_of_lines(), carriage_returns(), long_lines(), limit()]
        .into_iter()
        .flatten()
        .collect()
}

/// "A line ends at LF or at the end of the text; a text that ends in LF has no
/// further line, and an empty text has none."
fn ends_of_lines() -> Vec<Worked> {
    let mut texts = vec![
        worked("empty text", "", &["EE00000000000000000000"]),
        worked("LF alone", "\n", &["FF010000", "EE00000100000000000101"]),
        worked(
            "two LFs",
            "\n\n",
            &["FF010000", "FF010000", "EE00000200000000000201"],
        ),
        worked(
            "an LF behind the last line's",
            "0101\n\n",
            &["0000", "FF010000", "EE00000200000100000101"],
        ),
        worked(
            "an LF before the first line",
            "\n0101",
            &["FF010000", "0000", "EE00000200000100000101"],
        ),
    ];
    texts.extend(last_lines());
    texts
}

/// The last line may miss its LF, whatever its reply is.
fn last_lines() -> Vec<Worked> {
    let plan = "0002008010010000";
    let texts: [(&str, &[&str]); 4] = [
        ("0101", &["0000", "EE00000100000100000000"]),
        (
            "0102\n02000081\n05",
            &["0000", "0001", plan, "EE00000300000300000000"],
        ),
        (
            "0102\n0200008081\n06",
            &["0000", "0001", "FF02", "EE00000300000200000102"],
        ),
        ("0102\n010", &["0000", "FF010003", "EE00000200000100000101"]),
    ];
    let both_ends = |(text, output): (&str, &[&str])| {
        [
            worked("no last LF", text, output),
            worked("last LF", text.to_string() + "\n", output),
        ]
    };
    texts.into_iter().flat_map(both_ends).collect()
}

/// CR is another character, so every line that ends in CR LF is refused.
fn carriage_returns() -> Vec<Worked> {
    vec![
        worked(
            "CR LF",
            "0101\r\n05\r\n",
            &["FF010004", "FF010002", "EE00000200000000000201"],
        ),
        worked(
            "CR at the end",
            "0101\r",
            &["FF010004", "EE00000100000000000101"],
        ),
        worked(
            "CR LF alone",
            "0101\n\r\n05\n",
            &["0000", "FF010000", "0001008010", "EE00000300000200000101"],
        ),
        worked(
            "CR for LF",
            "0101\r05",
            &["FF010004", "EE00000100000000000101"],
        ),
    ]
}

/// A line may be longer than any frame. 65,535 characters are an odd count.
fn long_lines() -> Vec<Worked> {
    let bad_hex = |reply| [reply, "EE00000100000000000101"];
    let bad_frame = ["FF02", "EE00000100000000000102"];
    let bad_end = "02".repeat(32_766) + "0x";
    let bad_last = "0".repeat(65_534) + "G";
    vec![
        worked("65,535 digits", "0".repeat(65_535), &bad_hex("FF01FFFF")),
        worked("65,534 digits", "A".repeat(65_534), &bad_frame),
        worked(
            "65,534 digits and LF",
            "01".repeat(32_767) + "\n",
            &bad_frame,
        ),
        worked("32,767 plans in a line", "05".repeat(32_767), &bad_frame),
        worked(
            "65,534 other characters",
            "G".repeat(65_534),
            &bad_hex("FF010000"),
        ),
        worked(
            "another character at the end",
            bad_end,
            &bad_hex("FF01FFFD"),
        ),
        worked("65,534 digits and G", bad_last, &bad_hex("FF01FFFE")),
        worked("65,535 NULs", [0; 65_535], &bad_hex("FF010000")),
        worked("65,535 bytes FF", [0xFF; 65_535], &bad_hex("FF010000")),
    ]
}

/// "TextTooLong, over 65,535 bytes. No line is treated; the whole output is the
/// line FF0C, without tally."
fn limit() -> Vec<Worked> {
    let too_long = ["FF0C"];
    let empty_lines = [&["FF010000"; 65_535][..], &["EE00FFFF00000000FFFF01"]].concat();
    let mut texts = vec![
        worked("65,535 LFs", "\n".repeat(65_535), &empty_lines),
        worked("65,536 LFs", "\n".repeat(65_536), &too_long),
        worked("65,536 digits", "0".repeat(65_536), &too_long),
        worked("65,535 digits and LF", "0".repeat(65_535) + "\n", &too_long),
        worked("65,535 digits and G", "0".repeat(65_535) + "G", &too_long),
        worked(
            "65,534 digits, CR LF",
            "0".repeat(65_534) + "\r\n",
            &too_long,
        ),
    ];
    texts.extend(limit_of_good_lines());
    texts
}

/// An opening and 21,842 plans are 65,531 bytes. The limit counts the last LF.
fn limit_of_good_lines() -> Vec<Worked> {
    let text = "0101\n".to_string() + &"05\n".repeat(21_842);
    let mut replies = vec!["0001008010"; 21_843];
    replies[0] = "0000";
    let opened_again = [&replies[..], &["FF03", "EE00555400555300000103"]].concat();
    let plan_and_empty_line = ["0001008010", "FF010000", "EE00555500555400000101"];
    let plan_and_empty_line = [&replies[..], &plan_and_empty_line].concat();
    vec![
        worked("limit without LF", text.clone() + "0101", &opened_again),
        worked(
            "limit with LF",
            text.clone() + "05\n\n",
            &plan_and_empty_line,
        ),
        worked("over by a digit", text.clone() + "05\n05", &["FF0C"]),
        worked("over by an LF", text + "0101\n", &["FF0C"]),
    ]
}
