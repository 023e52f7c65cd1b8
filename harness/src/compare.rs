//! A program beside the plain solver.

use crate::plain::run_text;
use crate::shrink::shorten;
use std::borrow::Borrow;
use std::collections::BTreeMap;

/// How much of a text or an output a report shows.
const SHOWN: usize = 6_000;

/// How many bytes of output the search for a shorter text may cost: texts of
/// one length can be quick to answer or slow.
const SEARCHED: usize = 100_000_000;

/// What a program gives a text: its output, or how it ended if not well.
pub type Given = Result<Vec<u8>, String>;

/// The output that a program and the plain solver both give a text, or a report
/// of their difference on the shortest text that the search finds. A program that
/// does not end well differs.
pub fn compared(text: &[u8], program: impl Fn(&[u8]) -> Given) -> Result<Vec<u8>, String> {
    compared_with(text, program, run_text)
}

/// The same of a program that gives a text another output.
pub fn compared_with(
    text: &[u8],
    program: impl Fn(&[u8]) -> Given,
    plain: impl Fn(&[u8]) -> Vec<u8>,
) -> Result<Vec<u8>, String> {
    let output = plain(text);
    if program(text).as_ref() == Ok(&output) {
        return Ok(output);
    }
    let short = shortest(text, &program, &plain);
    let (given, expected) = (program(&short), plain(&short));
    let difference = match &given {
        Ok(given) => first_difference(given, &expected),
        Err(end) => Some(end.clone()),
    };
    let given = given.map(|output| shown(&output));
    Err(format!(
        "the program differs; the shortest text found has {} of {} bytes:\n{}\n\
         program:\n{}\nplain solver:\n{}\n{}",
        short.len(),
        text.len(),
        shown(&short),
        given.unwrap_or_else(|end| end),
        shown(&expected),
        difference.unwrap_or("no difference the second time".to_string()),
    ))
}

/// The shortest text found on which a program and the plain solver differ.
fn shortest(
    text: &[u8],
    program: impl Fn(&[u8]) -> Given,
    plain: impl Fn(&[u8]) -> Vec<u8>,
) -> Vec<u8> {
    let mut left = SEARCHED;
    shorten(text, |text| {
        if left == 0 {
            return false;
        }
        let expected = plain(text);
        left = left.saturating_sub(expected.len());
        program(text) != Ok(expected)
    })
}

/// Fails where two outputs differ, and shows the first difference.
pub fn check_output(name: &str, given: &[u8], expected: &[u8]) {
    if let Some(difference) = first_difference(given, expected) {
        panic!("{name}: {difference}");
    }
}

/// Fails where a kind was met less often than is asked.
pub fn check_met<K: Borrow<str> + Ord>(met: &BTreeMap<K, usize>, least: &[(&str, usize)]) {
    for (kind, least) in least {
        let met = met.get(*kind).copied().unwrap_or(0);
        assert!(met >= *least, "{kind}: {met} of {least}");
    }
}

/// The first line in which two outputs differ, if there is one. A line is
/// compared with its LF.
pub fn first_difference(given: &[u8], expected: &[u8]) -> Option<String> {
    let split = |output: &[u8]| -> Vec<Vec<u8>> {
        let lines = output.split_inclusive(|&byte| byte == b'\n');
        lines.map(<[u8]>::to_vec).collect()
    };
    let (given, expected) = (split(given), split(expected));
    let longer = given.len().max(expected.len());
    let line = (0..longer).find(|&line| given.get(line) != expected.get(line))?;
    let show = |lines: &[Vec<u8>]| match lines.get(line) {
        Some(line) => shown(line),
        None => "no line".to_string(),
    };
    Some(format!(
        "output line {line} (from 0): {} in place of {}",
        show(&given),
        show(&expected)
    ))
}

/// Bytes for reading: one line a line, LFs and other characters escaped, cut
/// where they are too many.
fn shown(bytes: &[u8]) -> String {
    let cut = &bytes[..bytes.len().min(SHOWN)];
    let lines = cut.split_inclusive(|&byte| byte == b'\n');
    let lines: Vec<String> = lines.map(|line| line.escape_ascii().to_string()).collect();
    match bytes.len() - cut.len() {
        0 => lines.join("\n"),
        more => format!("{}\n... and {more} more bytes", lines.join("\n")),
    }
}
