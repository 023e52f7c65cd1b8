//! The plain importer as a program that does what the import program does. It
//! stands in for it where the tests of the import program are tried
//! (`.ci/wrong-programs`).

use harness::plain::import;
use harness::standin::answer;

fn main() {
    answer(import);
}
