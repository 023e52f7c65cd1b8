//! The plain solver as a program that does what the saving program does. It stands in
//! for it where the tests of the saving program are tried.

use harness::plain::save_text;
use harness::standin::answer;

fn main() {
    answer(save_text);
}
