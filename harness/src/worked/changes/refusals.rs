//! Changes that the links refuse: "then the removal's Loop, then the adding's
//! Conflict or Loop; a refusal changes nothing". What becomes of formulas is in
//! `formulas`.

use super::Worked;

/// Every text of this file.
pub fn all() -> Vec<Worked> {
    vec![
        conflict(),
        loop_of_the_adding(),
        loop_of_the_removal(),
        refused_behind_a_turned_removal(),
        loop_of_a_blocked_stay(),
    ]
}

/// Links 0 and 1, both required, hold fields 0 and 1. Link 0 cannot be changed to a
/// required link for 1, of strength 0. At level 5 it waits there; field 0 is left
/// to its stay. It waits with level 5 after another refusal too: when link 1 goes,
/// it sets 1.
fn conflict() -> Worked {
    Worked::of_lines(
        "conflict of the adding",
        &[
            ("0102", "0000"),
            ("02000080", "0001"),
            ("02010081", "0001"),
            ("06000081", "FF0A"),
            ("05", "0002000000010100"),
            ("06000581", "0001"),
            ("05", "0002008010010100"),
            ("06000081", "FF0A"),
            ("05", "0002008010010100"),
            ("0301", "0001"),
            ("05", "0002008010010005"),
        ],
    )
}

/// Link 0 reads 0 and sets 1, link 1 sets 0: moved 2. Link 1 cannot be changed to
/// read 1, at whatever level, until link 0 is gone.
fn loop_of_the_adding() -> Worked {
    Worked::of_lines(
        "loop of the adding",
        &[
            ("0102", "0000"),
            ("0200000081", "0001"),
            ("02010080", "0002"),
            ("0601008001", "FF0B"),
            ("06010F8001", "FF0B"),
            ("05", "0002000100010000"),
            ("0300", "0001"),
            ("0601008001", "0000"),
            ("05", "0002018011000100"),
        ],
    )
}

/// The smallest text in which the removal's Loop refuses a change that would leave
/// no loop. Link 0 sets 0, link 1 reads 0 and sets 1, and link 2 (level 1), which
/// reads 1 to set 0, waits. Without link 0 field 0 has its stay, link 2 is blocked
/// and would set 0 from 1, which link 1 sets from 0.
///
/// So link 0 cannot be changed at all, not even to what it is. A link for field 0 of
/// level 1 could be added under another number: it waits. One for field 1 of level 0
/// would be a Conflict, which comes after the removal's Loop. Once link 2 is gone, link
/// 0 can be changed to the first, and has that Conflict with the second.
///
/// None is smaller: a loop takes two links that stay, over two fields each, and the
/// one changed is a third.
pub fn loop_of_the_removal() -> Worked {
    Worked::of_lines(
        "loop of the removal",
        &[
            ("0102", "0000"),
            ("02000080", "0001"),
            ("0201000081", "0001"),
            ("0202018001", "0000"),
            ("06000080", "FF0B"),
            ("06000180", "FF0B"),
            ("06000081", "FF0B"),
            ("02030180", "0000"),
            ("0303", "0000"),
            ("02030081", "FF0A"),
            ("05", "0002000000010100"),
            ("0302", "0000"),
            ("06000180", "0000"),
            ("05", "0002000001010100"),
            ("06000081", "FF0A"),
            ("05", "0002000001010100"),
        ],
    )
}

/// Link 2 (level 3) sets field 0, link 0 (required, outputs 0 and 1) reads it and
/// sets 1, link 4 (required) reads 1 and sets 2. Links 1 (level 5) and 3 (level 4),
/// which may set only 1, wait. The stay of 1 is the first.
///
/// Without link 2 link 3 sets 1 and link 0 turns to 0. Then link 2 as a required link
/// for 2 meets a Conflict. As a required link that reads 2 and sets 0 it turns link 0
/// back to 1, which link 4 reads to set 2: a Loop. Each time all is as before; link 3
/// waits again, and the removal of link 2 turns for it: fields 0 and 1 have another
/// setter, and 2 is downstream of 1.
fn refused_behind_a_turned_removal() -> Worked {
    let plan = "0003000203010003020400";
    Worked::of_lines(
        "refused behind a turned removal",
        &[
            ("0103", "0000"),
            ("0200008081", "0001"),
            ("02020380", "0002"),
            ("02010581", "0000"),
            ("02030481", "0000"),
            ("0204000182", "0001"),
            ("0401", "0000"),
            ("05", plan),
            ("06020082", "FF0A"),
            ("05", plan),
            ("0602008002", "FF0B"),
            ("05", plan),
            ("0302", "0003"),
            ("05", "0003010304000004020400"),
        ],
    )
}

/// Link 0 (required, outputs 0 and 1, covers 2) sets 1, link 1 reads 0 and sets 2, link
/// 2 (level 3) sets 0, and the stay of 1 is the first. So 1 is downstream of 2, and
/// both are downstream of 0. Without link 2 the stay of 1 is blocked and would turn
/// link 0 to 0, which reads 2, whose link 1 reads 0. Link 2 cannot go to field 3, where
/// nothing stands in its way, until link 1 is gone: then the stay of 1 sets 1, link 0
/// sets 0 and link 2 sets 3, moved 3.
fn loop_of_a_blocked_stay() -> Worked {
    let plan = "0004000203020100010003038013";
    Worked::of_lines(
        "loop of a blocked stay",
        &[
            ("0104", "0000"),
            ("020000808102", "0001"),
            ("0201000082", "0002"),
            ("02020380", "0003"),
            ("0401", "0000"),
            ("05", plan),
            ("06020383", "FF0B"),
            ("05", plan),
            ("0301", "0002"),
            ("06020383", "0003"),
            ("05", "0004018010028012000010030203"),
        ],
    )
}
