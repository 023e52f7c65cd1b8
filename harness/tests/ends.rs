//! How the end of a program is judged: right output does not excuse a bad end.

use harness::program::{closing_output, outcome_of, PANEL};
use harness::worked::items::ONE_RUN_IN_FULL;
use harness::worked::panels::longest_output;
use harness::worked::Worked;
use std::process::Command;

/// "One run in full".
fn one_run() -> Worked {
    let item = ONE_RUN_IN_FULL;
    Worked::new(item.name, item.lines, item.tally)
}

/// The program, and then this end.
fn ending(end: &str) -> Command {
    PANEL.through_shell(&format!(r#"ulimit -c 0; "$0"; {end}"#))
}

/// Ends with what is said of them.
const BAD_ENDS: [(&str, &str); 6] = [
    ("kill -SEGV $$", "signal: 11 "),
    ("kill -ABRT $$", "signal: 6 "),
    ("kill -KILL $$", "signal: 9 "),
    ("kill -TERM $$", "signal: 15 "),
    ("exit 1", "exit status: 1,"),
    ("exit 141", "exit status: 141,"),
];

fn check_bad_end<T: std::fmt::Debug>(given: Result<T, String>, said: &str) {
    let end = given.expect_err(said);
    assert!(end.contains(said), "{said} in {end}");
}

#[test]
fn right_output_and_a_good_end() {
    let text = one_run();
    assert_eq!(outcome_of(ending("exit 0"), &text.text), Ok(text.output));
}

#[test]
fn right_output_and_a_bad_end() {
    let text = one_run().text;
    for (end, said) in BAD_ENDS {
        check_bad_end(outcome_of(ending(end), &text), said);
    }
}

/// The signal of a closed pipe is a bad end too where nobody closed it: the
/// output was read to its end.
#[test]
fn signal_of_a_closed_pipe_while_it_is_open() {
    let (text, all) = (one_run(), 100_000);
    check_bad_end(
        outcome_of(ending("kill -PIPE $$"), &text.text),
        "signal: 13 ",
    );
    let seen = closing_output(ending("kill -PIPE $$"), &text.text, all);
    check_bad_end(seen, "signal: 13 ");
}

/// Where the output is closed the program may end by that signal or with exit
/// status 0, and by no other end.
#[test]
fn ends_with_a_closed_output() {
    let text = longest_output();
    for bytes in [0, 100] {
        for end in ["kill -PIPE $$", "exit 0"] {
            let seen = closing_output(ending(end), &text.text, bytes).expect(end);
            assert_eq!(seen.output, text.output[..bytes]);
        }
        for (end, said) in BAD_ENDS {
            check_bad_end(closing_output(ending(end), &text.text, bytes), said);
        }
    }
}
