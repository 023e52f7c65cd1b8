//! The plain solver as a program that does what the resuming program does. It stands in
//! for it where the tests of the resuming program are tried.

use harness::plain::resume_text;
use harness::standin::answer_with_file;

fn main() {
    answer_with_file(resume_text);
}
