//! What runs and what keeps its value: "touches f, stores the value and runs the
//! whole plan once; a link without formula, and a stay, keeps the value. A new
//! formula replaces the old, and removal drops it." Kind 08 computes nothing, and
//! of the other kinds none changes a value.

use super::{add, owned, ratio, store, sum, Valued, GREATEST, LEAST};

/// Every text of this file.
pub fn all() -> Vec<Valued> {
    vec![
        zero_at_opening(),
        link_without_formula(),
        order_of_the_plan(),
        whole_plan(),
        formula_computes_nothing(),
        other_kinds_change_no_value(),
        formula_replaced(),
        formula_dropped(),
        formula_of_a_waiting_link(),
        formula_dropped_while_waiting(),
        formula_kept_by_a_refused_removal(),
        formula_of_other_fields(),
        row_of_ratios(),
        halved_61_times(),
        formulas_of_all_numbers(),
    ]
}

/// "Zero at opening", also of a panel of 64 fields.
fn zero_at_opening() -> Valued {
    Valued::new("zero at opening").part(&[("0140", "0000")], &[0; 62])
}

/// Field 1 gets 5 while its stay sets it. The link that then sets it has no
/// formula and keeps 5, so that a value for field 0, which it reads, redraws only
/// field 0.
fn link_without_formula() -> Valued {
    Valued::new("link without formula")
        .part(&[("0104", "0000"), ("070100000005", "0001")], &[0, 5])
        .part(&[("0200000081", "0001")], &[0, 5])
        .part(&[("070000000009", "0001")], &[9, 5])
}

/// Link 0 sets field 0 from 1, link 1 sets 1 from 2, which leaves 0 downstream of 1:
/// the plan is 2, 1, 0. Field 1
/// is 3 times field 2, field 0 is 2 times field 1. By rising number field 0 would
/// come from the old value of field 1.
fn order_of_the_plan() -> Valued {
    Valued::new("order of the plan")
        .part(
            &[
                ("0105", "0000"),
                ("0200008001", "0001"),
                ("0201008102", "0002"),
                ("08000100010002", "0000"),
                ("08010100010003", "0000"),
                ("070200000005", "0003"),
            ],
            &[30, 15, 5],
        )
        .part(&[("070200000001", "0003")], &[6, 3, 1])
}

/// Field 1 is to be 2 times field 0, field 3 to be 3 times field 2. The formulas
/// come after field 0 has its value, and the next kind 07 is on field 2: it works
/// out field 1 too. Without link 0 field 1 shows the value that it got then.
fn whole_plan() -> Valued {
    Valued::new("whole plan")
        .part(
            &[
                ("0106", "0000"),
                ("0200000081", "0001"),
                ("0201000283", "0001"),
                ("070000000007", "0001"),
            ],
            &[7, 0, 0, 0],
        )
        .unsettled(
            &[("08000100020001", "0000"), ("08010100030001", "0000")],
            &[7, 0, 0, 0],
        )
        .part(&[("070200000005", "0003")], &[7, 14, 5, 15])
        .part(&[("0300", "0001")], &[7, 14, 5, 15])
}

/// The link gets its formula after field 0 has its value, and goes before the
/// next kind 07.
fn formula_computes_nothing() -> Valued {
    Valued::new("kind 08 computes nothing")
        .part(
            &[
                ("0104", "0000"),
                ("0200008081", "0001"),
                ("070000000007", "0001"),
            ],
            &[7, 0],
        )
        .unsettled(&[("08000100020001", "0000")], &[7, 0])
        .unsettled(&[("08000201", "0000")], &[7, 0])
        .part(&[("0300", "0001")], &[7, 0])
}

/// Field 1 is half of field 0: 3 gives 2. After the touch of 1 the link sets
/// field 0, which would be 4. Neither the touch nor a plan, an opening that is
/// refused, an add or a removal changes a value, though link 1, which may set only
/// field 0, turns link 0 to field 1 and its removal turns it back.
fn other_kinds_change_no_value() -> Valued {
    Valued::new("other kinds change no value")
        .part(
            &[
                ("0104", "0000"),
                ("0200008081", "0001"),
                ("08000100010002", "0000"),
                ("070000000003", "0002"),
            ],
            &[3, 2],
        )
        .unsettled(&[("0401", "0002")], &[3, 2])
        .unsettled(&[("05", "0004018010000010028012038013")], &[3, 2])
        .unsettled(&[("0104", "FF03")], &[3, 2])
        .unsettled(&[("02010580", "0002"), ("0301", "0002")], &[3, 2])
        .part(&[("0300", "0001")], &[3, 2])
        .part(&[("0205000081", "0001"), ("070000000009", "0001")], &[9, 2])
}

/// A ratio by another one, by a sum, by a sum into the other field, and back. One
/// that is refused replaces nothing.
fn formula_replaced() -> Valued {
    Valued::new("formula replaced")
        .part(
            &[
                ("0104", "0000"),
                ("0200000081", "0001"),
                ("08000100020001", "0000"),
                ("070000000003", "0002"),
            ],
            &[3, 6],
        )
        .part(
            &[("08000100000001", "FF0F"), ("070000000004", "0002")],
            &[4, 8],
        )
        .part(&[("08000202", "FF0F"), ("070000000005", "0002")], &[5, 10])
        .part(
            &[("08000100030001", "0000"), ("070000000005", "0001")],
            &[5, 15],
        )
        .part(&[("08000201", "0000"), ("070000000006", "0002")], &[6, 6])
        .part(&[("08000200", "0000"), ("070000000007", "0002")], &[7, 7])
        .part(
            &[("08000100010007", "0000"), ("070000000015", "0002")],
            &[21, 3],
        )
}

/// The link goes and is added again under its number: it starts without a
/// formula, so field 1 keeps 6, until it gets one.
fn formula_dropped() -> Valued {
    Valued::new("formula dropped")
        .part(
            &[
                ("0104", "0000"),
                ("0200008081", "0001"),
                ("08000100020001", "0000"),
                ("070000000003", "0002"),
            ],
            &[3, 6],
        )
        .part(&[("0300", "0001"), ("08000201", "FF09")], &[3, 6])
        .part(&[("0200008081", "0001"), ("070000000005", "0001")], &[5, 6])
        .part(
            &[("08000100030001", "0000"), ("070000000005", "0001")],
            &[5, 15],
        )
}

/// Link 0 (required) sets field 1 and link 1 (level 5) waits for it: its formula,
/// 3 to 1, plays no part until link 0 goes. Link 1 sets field 1 then, keeps its
/// own formula, and takes it along when it goes.
fn formula_of_a_waiting_link() -> Valued {
    Valued::new("formula of a waiting link")
        .part(
            &[
                ("0104", "0000"),
                ("0200000081", "0001"),
                ("0201050081", "0000"),
                ("08000100020001", "0000"),
                ("08010100030001", "0000"),
                ("070000000004", "0002"),
            ],
            &[4, 8],
        )
        .unsettled(&[("0300", "0001")], &[4, 8])
        .part(&[("070000000004", "0001")], &[4, 12])
        .part(
            &[
                ("0301", "0001"),
                ("0201050081", "0001"),
                ("070000000009", "0001"),
            ],
            &[9, 12],
        )
}

/// Link 1 waits, gets a formula and goes, and is added again: when link 0 goes,
/// link 1 sets field 1 and has no formula.
fn formula_dropped_while_waiting() -> Valued {
    Valued::new("formula dropped while waiting")
        .part(
            &[
                ("0104", "0000"),
                ("0200000081", "0001"),
                ("0201050081", "0000"),
                ("08010100030001", "0000"),
                ("0301", "0000"),
                ("0201050081", "0000"),
                ("0300", "0001"),
                ("070000000004", "0001"),
            ],
            &[4, 0],
        )
        .part(
            &[("08010100030001", "0000"), ("070000000004", "0001")],
            &[4, 12],
        )
}

/// Link 0 sets 1 and reads 0 and 2, link 1 sets 2 from 0, link 2 sets 0 from 3: 1 is
/// downstream of 2, and both are downstream of 0. The removal of link 2 would let
/// the stay of 1 turn link 0 to field 0, which reads 2, whose link 1 reads 0: a loop.
/// Link 2 keeps its formula, field 0 is 2 times field 3.
fn formula_kept_by_a_refused_removal() -> Valued {
    Valued::new("formula kept by a refused removal")
        .part(
            &[
                ("0106", "0000"),
                ("020000808102", "0001"),
                ("0201000082", "0002"),
                ("0202038003", "0003"),
                ("08020100010002", "0000"),
                ("070300000004", "0002"),
            ],
            &[8, 0, 0, 4],
        )
        .part(&[("0401", "0000"), ("0302", "FF0B")], &[8, 0, 0, 4])
        .part(&[("070300000005", "0002")], &[10, 0, 0, 5])
}

/// Link 0 is added again over other fields: the old formula would make field 2
/// the sum of 0 and 1.
fn formula_of_other_fields() -> Valued {
    Valued::new("formula of other fields")
        .part(
            &[
                ("0106", "0000"),
                ("020000000182", "0001"),
                ("08000202", "0000"),
                ("070000000003", "0002"),
                ("070100000004", "0002"),
            ],
            &[3, 4, 7, 0],
        )
        .part(
            &[
                ("0300", "0001"),
                ("020000010283", "0001"),
                ("070100000006", "0001"),
            ],
            &[3, 6, 7, 0],
        )
        .part(
            &[("08000203", "0000"), ("070100000006", "0001")],
            &[3, 6, 7, 13],
        )
}

/// 62 fields in a row, a link with a ratio between each and the next; it may set
/// either of them.
fn row(name: &str, p: u16, q: u16) -> Valued {
    let mut lines = owned(&[("0140", "0000")]);
    for id in 0..61 {
        let link = add(id, 0, [id | 0x80, (id + 1) | 0x80]);
        lines.extend(owned(&[(&link, "0001"), (&ratio(id, p, q), "0000")]));
    }
    Valued::new(name).with(lines, &[0; 62], true)
}

/// 1 to 1: every field follows the first one, so that a value changes 62 values. One
/// for the last field turns all links, so that each of the 62 fields has another
/// setter too.
fn row_of_ratios() -> Valued {
    row("row of ratios", 1, 1)
        .part(&[("0700000003E8", "003E")], &[1_000; 62])
        .part(&[("073DFFFFFC18", "003E")], &[-1_000; 62])
        .part(&[("073D80000000", "003E")], &[LEAST; 62])
}

/// 1 to 2 along the row. The greatest value gives 2 to the 30th, since its half
/// is rounded up; after 31 links there is 1, and then always a half, which is
/// rounded to 1.
fn halved_61_times() -> Valued {
    let mut values = [1; 62];
    values[0] = GREATEST;
    for (place, value) in (1..31).zip((1..31).rev()) {
        values[place] = 1 << value;
    }
    let negative = values.map(|value| -value);
    row("halved 61 times", 1, 2)
        .part(&[("07007FFFFFFF", "003E")], &values)
        .part(&[("070080000001", "003E")], &negative)
}

/// Links 0 to 60 (required), each of which sets a field from the one before it, 1
/// to 1, and links 61 to 126 (level 5), which wait for the same fields with other
/// formulas: one for each number but the one that looks. A value for field 0 changes
/// those of all 62.
fn formulas_of_all_numbers() -> Valued {
    let mut lines = owned(&[("0140", "0000")]);
    for id in 0..127 {
        let (first, level, reply) = match id {
            0..61 => (id, 0, "0001"),
            _ => ((id - 61) % 61, 5, "0000"),
        };
        let formula = match id {
            0..61 => ratio(id, 1, 1),
            _ if id % 2 == 0 => ratio(id, 65_535, 1),
            _ => sum(id, first),
        };
        let link = add(id, level, [first, (first + 1) | 0x80]);
        lines.extend(owned(&[(&link, reply), (&formula, "0000")]));
    }
    lines.extend(owned(&[(&store(0, GREATEST), "003E")]));
    Valued::new("formulas of all numbers").with(lines, &[GREATEST; 62], true)
}
