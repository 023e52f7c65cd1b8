//! The search for a shorter text.

use harness::plain::{lines, run_text};
use harness::shrink::shorten;

/// Whether some line of the text is refused with Loop.
fn has_loop(text: &[u8]) -> bool {
    let output = run_text(text);
    lines(&output).contains(&&b"FF0B"[..])
}

/// Whether a reader that takes lower case differs from the plain solver.
fn lower_case_differs(text: &[u8]) -> bool {
    run_text(&text.to_ascii_uppercase()) != run_text(text)
}

/// No line and no byte of a text can be dropped without losing the difference.
fn is_least(text: &[u8], differs: fn(&[u8]) -> bool) -> bool {
    let pieces: Vec<&[u8]> = text.split_inclusive(|&byte| byte == b'\n').collect();
    let fewer_lines = (0..pieces.len()).map(|i| [&pieces[..i], &pieces[i + 1..]].concat().concat());
    let fewer_bytes = (0..text.len()).map(|i| [&text[..i], &text[i + 1..]].concat());
    !fewer_lines.chain(fewer_bytes).any(|fewer| differs(&fewer))
}

#[test]
fn loop_needs_three_lines() {
    let noise = "0300\n05\n0400\nAB\n\n020505828384\n";
    let text = noise.to_string()
        + "0105\n"
        + &noise.repeat(20)
        + "0200000081\n05\n0401\n0201008001\n"
        + &noise.repeat(20);
    assert!(has_loop(text.as_bytes()));
    let short = shorten(text.as_bytes(), has_loop);
    assert!(has_loop(&short));
    assert_eq!(
        lines(&short).len(),
        3,
        "{}",
        String::from_utf8_lossy(&short)
    );
    assert!(is_least(&short, has_loop));
}

#[test]
fn lower_case_needs_one_byte() {
    let text = "0140\n".to_string() + &"0201008a\n05\n0405\n".repeat(50);
    let short = shorten(text.as_bytes(), lower_case_differs);
    assert_eq!(short.len(), 1, "{}", String::from_utf8_lossy(&short));
    assert!(lower_case_differs(&short));
}

#[test]
fn equal_text_comes_back() {
    assert_eq!(shorten(b"0101\n05\n", lower_case_differs), b"0101\n05\n");
    assert_eq!(shorten(b"", |_| true), b"");
    assert_eq!(shorten(b"05\n05\n05", |_| true), b"");
}

/// The search in a long text ends too, with what it found by then.
#[test]
fn search_is_limited() {
    let text = vec![b'0'; 66_000];
    let short = shorten(&text, |text| text.len() > 65_535);
    assert!(short.len() > 65_535 && short.len() < 66_000);
}
