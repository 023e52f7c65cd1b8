//! Counts of kind 07: besides the fields that its touch redraws "also every field
//! whose value changed", each field once. What is downstream of a field that only
//! changed its value does not count for that.

use super::super::values::LEAST;
use super::Valued;

/// Every text of this file.
pub fn all() -> Vec<Valued> {
    vec![
        value_alone(),
        value_that_stays_downstream(),
        value_behind_one_that_stays(),
        value_as_it_was(),
        value_as_it_was_turns(),
        turned_and_changed(),
        changed_elsewhere(),
        refused(),
        refused_where_it_would_turn(),
        other_kinds_count_no_value(),
    ]
}

/// Link 0 reads 0 and sets 1, link 1 reads 1 and sets 2, both without a formula: a
/// value for 0 leaves those of 1 and 2, which are downstream and not redrawn. The same
/// when link 1 has a formula, since 1 is still zero.
fn value_alone() -> Valued {
    Valued::new("value alone")
        .part(
            &[
                ("0105", "0000"),
                ("0200000081", "0001"),
                ("0201000182", "0001"),
                ("070000000005", "0001"),
            ],
            &[5, 0, 0],
        )
        .part(
            &[("08010100020001", "0000"), ("070000000006", "0001")],
            &[6, 0, 0],
        )
}

/// Field 1 is half of field 0 and 2 is field 1. From 3 to 4 field 1 stays 2, the half
/// of 3 being rounded up, and so does 2: only field 0 is redrawn.
fn value_that_stays_downstream() -> Valued {
    Valued::new("value that stays downstream")
        .part(
            &[
                ("0105", "0000"),
                ("0200000081", "0001"),
                ("0201000182", "0001"),
                ("08000100010002", "0000"),
                ("08010100010001", "0000"),
                ("070000000003", "0003"),
            ],
            &[3, 2, 2],
        )
        .part(&[("070000000004", "0001")], &[4, 2, 2])
        .part(&[("070000000005", "0003")], &[5, 3, 3])
}

/// Link 0 reads 0 and sets 1 and has no formula; field 2 is the sum of 0 and 1, and 3
/// is half of 2. A value for 0 changes 2 too, and 3 at times, but never 1.
fn value_behind_one_that_stays() -> Valued {
    Valued::new("value behind one that stays")
        .part(
            &[
                ("0106", "0000"),
                ("0200000081", "0001"),
                ("020100000182", "0001"),
                ("0202000283", "0001"),
                ("08010202", "0000"),
                ("08020100010002", "0000"),
                ("070000000005", "0003"),
            ],
            &[5, 0, 5, 3],
        )
        .part(&[("070000000006", "0002")], &[6, 0, 6, 3])
        .part(&[("070000000007", "0003")], &[7, 0, 7, 4])
}

/// A value that the field has already is no change. With a link that sets field 1 and
/// gets its formula later, 2 to 1, the same value for field 0 changes only field 1,
/// and once more nothing.
fn value_as_it_was() -> Valued {
    Valued::new("value as it was")
        .part(&[("0104", "0000"), ("070000000000", "0000")], &[0, 0])
        .part(&[("070000000005", "0001")], &[5, 0])
        .part(&[("070000000005", "0000")], &[5, 0])
        .part(&[("0200000081", "0001")], &[5, 0])
        .unsettled(&[("08000100020001", "0000")], &[5, 0])
        .part(&[("070000000005", "0001")], &[5, 10])
        .part(&[("070000000005", "0000")], &[5, 10])
}

/// Fields 0 and 1 are the same, by a link that may set either, and link 1 reads 0 and
/// sets 2. The value that 1 has turns link 0 to 0: no value changes, both have another
/// setter, and 2 is downstream.
fn value_as_it_was_turns() -> Valued {
    Valued::new("value as it was that turns")
        .part(
            &[
                ("0105", "0000"),
                ("0200008081", "0001"),
                ("0201000082", "0001"),
                ("08000100010001", "0000"),
                ("070000000005", "0002"),
            ],
            &[5, 5, 0],
        )
        .part(
            &[
                ("070100000005", "0003"),
                ("05", "0005018010000010020100038013048014"),
            ],
            &[5, 5, 0],
        )
        .part(&[("070100000005", "0000")], &[5, 5, 0])
        .part(&[("070000000005", "0003")], &[5, 5, 0])
}

/// Fields 0 and 1 are the same, by link 0, which may set either. Link 1 reads 1 and sets
/// 2, without a formula; link 2 reads 0 and sets 3, 2 to 1. Link 3 reads 4 and sets 5
/// and gets its formula, 3 to 1, after 4 has its value.
///
/// A value for 1 turns link 0: 0 and 1 have another setter, 2 and 3 are downstream. The
/// values of 0, 1, 3 and 5 change. Together these are 0, 1, 2, 3 and 5, each counted
/// once. The same value again changes nothing; the value that 0 has turns link 0
/// back, which redraws 0 to 3.
fn turned_and_changed() -> Valued {
    Valued::new("turned and changed")
        .part(
            &[
                ("0108", "0000"),
                ("0200008081", "0001"),
                ("0201000182", "0001"),
                ("0202000083", "0001"),
                ("0203000485", "0001"),
                ("08000100010001", "0000"),
                ("08020100020001", "0000"),
                ("070000000003", "0003"),
                ("070400000002", "0001"),
            ],
            &[3, 3, 0, 6, 2, 0],
        )
        .unsettled(&[("08030100030001", "0000")], &[3, 3, 0, 6, 2, 0])
        .part(&[("070100000007", "0005")], &[7, 7, 0, 14, 2, 6])
        .part(&[("070100000007", "0000")], &[7, 7, 0, 14, 2, 6])
        .part(&[("070000000007", "0004")], &[7, 7, 0, 14, 2, 6])
}

/// Field 1 is to be 2 times field 0, field 3 to be 3 times field 2, by formulas that
/// come after both values. A value for field 4, which no link covers, runs the whole
/// plan: 4, 1 and 3 change, and link 2, which reads 1 and sets 5, has no formula.
fn changed_elsewhere() -> Valued {
    Valued::new("changed elsewhere")
        .part(
            &[
                ("0108", "0000"),
                ("0200000081", "0001"),
                ("0201000283", "0001"),
                ("0202000185", "0001"),
                ("070000000007", "0001"),
                ("070200000005", "0001"),
            ],
            &[7, 0, 5, 0, 0, 0],
        )
        .unsettled(
            &[("08000100020001", "0000"), ("08010100030001", "0000")],
            &[7, 0, 5, 0, 0, 0],
        )
        .part(&[("070400000009", "0003")], &[7, 14, 5, 15, 9, 0])
}

/// Field 1 is 2 times field 0, and link 1 reads it to set 2. FieldDriven for field 1,
/// also with the value that it has, and OutOfRange for a value of field 0 that is too
/// large: nothing changes, so that the value which 0 has redraws nothing behind them,
/// and the next one redraws 0 and 1.
fn refused() -> Valued {
    Valued::new("refused values")
        .part(
            &[
                ("0105", "0000"),
                ("0200000081", "0001"),
                ("0201000182", "0001"),
                ("08000100020001", "0000"),
                ("070000000003", "0002"),
            ],
            &[3, 6, 0],
        )
        .part(
            &[
                ("070100000006", "FF0E"),
                ("070100000007", "FF0E"),
                ("07007FFFFFFF", "FF0D"),
                ("070000000003", "0000"),
            ],
            &[3, 6, 0],
        )
        .part(&[("070000000004", "0002")], &[4, 8, 0])
}

/// Field 1 is half of field 0, by a link that may set either, and link 1 reads 0 and
/// sets 2. The greatest value for field 1 would turn link 0 and is OutOfRange: the
/// value that 0 has turns nothing behind it. A value for 1 that fits turns the link: 0
/// and 1 have another setter, and 2 is downstream.
fn refused_where_it_would_turn() -> Valued {
    Valued::new("refused value that would turn")
        .part(
            &[
                ("0105", "0000"),
                ("0200008081", "0001"),
                ("0201000082", "0001"),
                ("08000100010002", "0000"),
                ("070000000005", "0002"),
            ],
            &[5, 3, 0],
        )
        .part(
            &[("07017FFFFFFF", "FF0D"), ("070000000005", "0000")],
            &[5, 3, 0],
        )
        .part(&[("0701C0000000", "0003")], &[LEAST, -1_073_741_824, 0])
}

/// Of the other kinds none counts a value: field 1 is to be 2 times field 0 and is not
/// yet, whatever comes, until a value does. Link 1 for field 0 redraws both since 1 is
/// downstream, and so does its removal.
fn other_kinds_count_no_value() -> Valued {
    Valued::new("other kinds count no value")
        .part(
            &[
                ("0105", "0000"),
                ("0200000081", "0001"),
                ("070000000003", "0001"),
            ],
            &[3, 0, 0],
        )
        .unsettled(&[("08000100020001", "0000")], &[3, 0, 0])
        .unsettled(&[("0400", "0000"), ("0402", "0000")], &[3, 0, 0])
        .unsettled(&[("0600050081", "0000")], &[3, 0, 0])
        .unsettled(&[("02010380", "0002"), ("0301", "0002")], &[3, 0, 0])
        .unsettled(&[("02020582", "0001"), ("0302", "0001")], &[3, 0, 0])
        .part(&[("070200000001", "0002")], &[3, 6, 1])
}
