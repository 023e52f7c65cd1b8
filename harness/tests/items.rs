//! The items of document 01 on the plain solver: the replies and tallies of
//! `harness::worked::items`, and what the items say of the panel's record.

use harness::plain::{run_text, Item, Run, Standing};
use harness::worked::items;

/// Runs lines on an unopened panel and compares each reply.
fn run_lines(lines: &[(&str, &str)]) -> Run {
    let mut run = Run::default();
    for (place, (line, reply)) in lines.iter().enumerate() {
        assert_eq!(run.line(line.as_bytes()), *reply, "line {place}: {line}");
    }
    run
}

/// Runs a whole item and compares the tally too.
fn run(item: &items::Item) -> Run {
    let run = run_lines(item.lines);
    assert_eq!(run.tally.line(), item.tally, "{}", item.name);
    run
}

/// Every item as a text.
#[test]
fn items_as_texts() {
    for item in items::all() {
        assert_eq!(run_text(&item.text), item.output, "{}", item.name);
    }
}

/// "0101 is accepted; 0100 gives FF05. 0140 accepted, 0141 FF05."
#[test]
fn p_sizes() {
    let sizes = items::SIZES.map(|item| run(&item).panel.size());
    assert_eq!(sizes, [1, 0, 64, 0]);
}

/// "Field 0 has strength 16, so it is taken, moved 1, field 0's stay waits", with
/// document 02's request 6 moved 2.
#[test]
fn p_stay_is_displaced() {
    let before = run_lines(&items::STAY_IS_DISPLACED.lines[..2]);
    assert_eq!(before.panel.strengths()[0], 16);
    let after = run(&items::STAY_IS_DISPLACED);
    assert_eq!(after.panel.setters(), [Item::Link(1), Item::Link(0)]);
    assert_eq!(after.panel.standing(Item::Stay(0)), Standing::Waiting);
}

/// "Second reply FF0A."
#[test]
fn p_conflict() {
    let after = run(&items::CONFLICT);
    assert_eq!(after.panel.setter(1), Item::Link(0));
    assert!(!after.panel.links().contains_key(&1));
}

/// "FF0B, and the plan still gives field 0 its stay."
#[test]
fn p_loop() {
    let after = run(&items::LOOP);
    assert_eq!(after.panel.setter(0), Item::Stay(0));
    assert!(!after.panel.links().contains_key(&1));
}

/// "Second accepted, moved 0, waiting."
#[test]
fn p_equal_level_waits() {
    let after = run_lines(&items::EQUAL_LEVELS.lines[..3]);
    assert_eq!(after.panel.standing(Item::Link(0)), Standing::Holding(0));
    assert_eq!(after.panel.standing(Item::Link(1)), Standing::Waiting);
}

/// "Then 02020480: moved 1, link 0 waits."
#[test]
fn p_then_stronger_link() {
    let after = run_lines(&items::EQUAL_LEVELS.lines[..5]);
    assert_eq!(after.panel.standing(Item::Link(0)), Standing::Waiting);
    assert_eq!(after.panel.standing(Item::Link(1)), Standing::Waiting);
    assert_eq!(after.panel.standing(Item::Link(2)), Standing::Holding(0));
}

/// "Then 0302: link 0, not link 1, holds field 0; moved 1."
#[test]
fn p_then_removal() {
    let after = run(&items::EQUAL_LEVELS);
    assert_eq!(after.panel.standing(Item::Link(0)), Standing::Holding(0));
    assert_eq!(after.panel.standing(Item::Link(1)), Standing::Waiting);
}

/// "010a, 010 and an empty line: FF01", with the two bytes of document 02's
/// request 1.
#[test]
fn bad_hex() {
    for item in &items::BAD_HEX {
        assert!(!run(item).panel.is_open(), "{}", item.name);
    }
}

/// "On an open panel an added link of level 0F is accepted, 10 gives FF06; id
/// 7F is accepted, 80 gives FF06."
#[test]
fn level_and_number_limits() {
    let links = items::LEVELS_AND_NUMBERS.map(|item| run(&item).panel.links().len());
    assert_eq!(links, [1, 0, 1, 0]);
}

/// "With 64 fields 043F is accepted, 0440 gives FF07."
#[test]
fn last_field() {
    let after = run(&items::LAST_FIELD);
    assert_eq!(after.panel.stays()[..2], [63, 0]);
}

/// "Eight field bytes are taken, nine give FF02."
#[test]
fn eight_field_bytes() {
    let after = run(&items::EIGHT_FIELD_BYTES);
    assert_eq!(after.panel.links()[&0].covered.len(), 8);
    assert_eq!(after.panel.setter(7), Item::Link(0));
}
