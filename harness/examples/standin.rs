//! The plain solver as a program that does what the run program does. It stands
//! in for it where the tests of the run program are tried (`.ci/wrong-programs`).

use harness::plain::run_text;
use harness::standin::answer;

fn main() {
    answer(run_text);
}
