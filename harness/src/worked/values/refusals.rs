//! Refusals of kind 07, one after the other: Loop, FieldDriven ("a link still
//! sets f after the touch, checked before 13"), OutOfRange. "Every refusal undoes
//! the touch", and the values and formulas stay.

use super::{Valued, GREATEST, LEAST};

/// Every text of this file.
pub fn all() -> Vec<Valued> {
    vec![
        driven_by_a_link(),
        driven_with_another_output(),
        driven_before_out_of_range(),
        loop_before_out_of_range(),
        out_of_range_undone(),
        out_of_range_undone_in_the_middle(),
        out_of_range_elsewhere(),
    ]
}

/// Link 0 reads 0 and may set only 1, link 1 (level 15) may set only 2: a touch
/// takes neither field from its link, with a formula or without. The plan shows
/// that the order of the stays is as it was.
fn driven_by_a_link() -> Valued {
    Valued::new("driven by a link")
        .part(
            &[
                ("0105", "0000"),
                ("0200000081", "0001"),
                ("02010F82", "0001"),
                ("070100000005", "FF0E"),
                ("070200000005", "FF0E"),
                ("05", "000500801001000002010F038013048014"),
            ],
            &[0, 0, 0],
        )
        .part(
            &[
                ("08000100010001", "0000"),
                ("070000000003", "0002"),
                ("070100000003", "FF0E"),
                ("070100000004", "FF0E"),
            ],
            &[3, 3, 0],
        )
        .part(&[("0301", "0001"), ("070200000007", "0001")], &[3, 3, 7])
}

/// Link 0 may set 0 or 1, and link 1 (level 5) may set only 0, so that link 0
/// reads 0 and sets 1, of strength 5. The stay of 1, first in the order, is not
/// blocked by 5. Without link 1 the strength of 1 is that of the stay of 0.
fn driven_with_another_output() -> Valued {
    Valued::new("driven with another output")
        .part(
            &[
                ("0104", "0000"),
                ("0200008081", "0001"),
                ("02010580", "0002"),
                ("070100000001", "FF0E"),
                ("070000000001", "FF0E"),
            ],
            &[0, 0],
        )
        .part(&[("0301", "0002"), ("070100000001", "0002")], &[0, 1])
}

/// Field 1 is to be 2 times field 0, which is the greatest value: every run of
/// the plan has a result outside the limits. A kind 07 on field 1 is FieldDriven
/// all the same; one on field 2, which no link covers, is OutOfRange and leaves
/// the order of the stays. A smaller value of field 0 is accepted.
fn driven_before_out_of_range() -> Valued {
    Valued::new("driven before out of range")
        .part(
            &[
                ("0105", "0000"),
                ("0200000081", "0001"),
                ("07007FFFFFFF", "0001"),
            ],
            &[GREATEST, 0, 0],
        )
        .unsettled(
            &[
                ("08000100020001", "0000"),
                ("070100000000", "FF0E"),
                ("070200000001", "FF0D"),
                ("07007FFFFFFF", "FF0D"),
                ("070080000000", "FF0D"),
                ("05", "0005008010010000028012038013048014"),
            ],
            &[GREATEST, 0, 0],
        )
        .part(
            &[("07003FFFFFFF", "0002")],
            &[1_073_741_823, 2_147_483_646, 0],
        )
}

/// Link 0 may set 0 or 1 and reads 2 too; link 1 reads 0 and sets 2, which 1 is
/// downstream of. The touch of 1 would turn link 0 to 0: a loop, whatever the
/// value. Then field 2 is to be 2 times field 0, the greatest value: a kind 07 on
/// 1 is still a Loop, one on 3 is OutOfRange, and the plan shows the order as it
/// was, but for field 0.
fn loop_before_out_of_range() -> Valued {
    Valued::new("loop before out of range")
        .part(
            &[
                ("0106", "0000"),
                ("020000808102", "0001"),
                ("0201000082", "0002"),
                ("070100000005", "FF0B"),
            ],
            &[0, 0, 0, 0],
        )
        .part(&[("07007FFFFFFF", "0001")], &[GREATEST, 0, 0, 0])
        .unsettled(
            &[
                ("08010100020001", "0000"),
                ("070100000005", "FF0B"),
                ("070300000005", "FF0D"),
                ("05", "0006008010020100010010038013048014058015"),
            ],
            &[GREATEST, 0, 0, 0],
        )
        .part(&[("070000000004", "0002")], &[4, 0, 8, 0])
}

/// Field 1 is half of field 0. The greatest value for field 1 would turn the link
/// to field 0 and give it twice as much. The plan shows link 0 at field 1 and the
/// order as it was, so the next kind 07 on field 0 turns nothing: its 2 fields are
/// those whose values change.
fn out_of_range_undone() -> Valued {
    Valued::new("out of range undone")
        .part(
            &[
                ("0104", "0000"),
                ("0200008081", "0001"),
                ("08000100010002", "0000"),
                ("070000000005", "0002"),
            ],
            &[5, 3],
        )
        .part(
            &[
                ("07017FFFFFFF", "FF0D"),
                ("05", "0004008010010010028012038013"),
            ],
            &[5, 3],
        )
        .part(&[("070180000000", "FF0D")], &[5, 3])
        .part(&[("070000000007", "0002")], &[7, 4])
        .part(&[("0701C0000000", "0002")], &[LEAST, -1_073_741_824])
}

/// Fields 0 to 3 in a row: 1 is field 0, 2 is field 1, 3 is 2 times field 2. The
/// value 1,073,741,824 for field 0 is outside the limits only at field 3, after 1
/// and 2 are worked out: none of them keeps it. The same from the middle, where
/// link 1 turns. With the value 1,073,741,823 it is accepted: links 0 and 1 turn, and
/// field 3 is downstream of 2.
fn out_of_range_undone_in_the_middle() -> Valued {
    Valued::new("out of range undone in the middle")
        .part(
            &[
                ("0106", "0000"),
                ("0200008081", "0001"),
                ("0201008182", "0001"),
                ("0202000283", "0001"),
                ("08000100010001", "0000"),
                ("08010201", "0000"),
                ("08020100020001", "0000"),
                ("070000000009", "0004"),
            ],
            &[9, 9, 9, 18],
        )
        .part(
            &[
                ("070040000000", "FF0D"),
                ("070240000000", "FF0D"),
                ("05", "0006008010010010020110030200048014058015"),
            ],
            &[9, 9, 9, 18],
        )
        .part(&[("07023FFFFFFF", "0004")], &{
            const M: i32 = 1_073_741_823;
            [M, M, M, 2 * M]
        })
}

/// Two links that share no field. Field 1, 3 times field 0, would be outside the
/// limits, since field 0 got its value before the formula; so a value for field 2
/// is refused and field 3 keeps its own, until link 0 goes.
fn out_of_range_elsewhere() -> Valued {
    Valued::new("out of range elsewhere")
        .part(
            &[
                ("0106", "0000"),
                ("0200000081", "0001"),
                ("0201000283", "0001"),
                ("08010100030001", "0000"),
                ("070040000000", "0001"),
                ("070200000002", "0002"),
            ],
            &[1_073_741_824, 0, 2, 6],
        )
        .unsettled(
            &[("08000100030001", "0000"), ("070200000005", "FF0D")],
            &[1_073_741_824, 0, 2, 6],
        )
        .part(&[("0300", "0001")], &[1_073_741_824, 0, 2, 6])
        .part(&[("070200000005", "0002")], &[1_073_741_824, 0, 5, 15])
}
