//! Changes that are accepted: the link is removed, with the walk that may follow,
//! and added anew on the panel that this leaves. "Moved compares the state before
//! with the state after both, a link of the same number being the same setter." What
//! is downstream is counted too (request 6), as after every command; here it is as a
//! rule among the fields with another setter.

use super::Worked;

/// Every text of this file.
pub fn all() -> Vec<Worked> {
    vec![
        level(),
        level_as_it_was(),
        outputs(),
        fields_read(),
        one_after_the_other(),
        as_one(),
        stay_found_blocked(),
        stay_order(),
        number_taken(),
    ]
}

/// Link 0 (level 5) holds field 0, link 1 (level 7) waits for it.
///
/// To level 9: without link 0 link 1 sets 0, of strength 7 then, so link 0 waits.
/// To 6: it takes the field from link 1. To 0: link 1 gets the field and loses it
/// again, moved 0. To 15 it waits, and to 7 too, since equal is not blocked.
fn level() -> Worked {
    Worked::of_lines(
        "level",
        &[
            ("0101", "0000"),
            ("02000580", "0001"),
            ("02010780", "0000"),
            ("05", "0001000005"),
            ("06000980", "0001"),
            ("05", "0001000107"),
            ("06000680", "0001"),
            ("05", "0001000006"),
            ("06000080", "0000"),
            ("05", "0001000000"),
            ("06000F80", "0001"),
            ("05", "0001000107"),
            ("06000780", "0000"),
            ("05", "0001000107"),
        ],
    )
}

/// A link that is changed to what it is gives its field to one of equal level that
/// waits: after the removal it comes second. While it waits nothing moves.
fn level_as_it_was() -> Worked {
    Worked::of_lines(
        "level as it was",
        &[
            ("0101", "0000"),
            ("02000580", "0001"),
            ("02010580", "0000"),
            ("06000580", "0001"),
            ("05", "0001000105"),
            ("06000580", "0000"),
            ("05", "0001000105"),
            ("06010580", "0001"),
            ("05", "0001000005"),
        ],
    )
}

/// Link 0 over fields 0 and 1 may set 1, then 0, then both, then 1 again. Of both
/// it takes 1, strength 17; where it may set both the strength of 1 is 16, from
/// field 0. The last change leaves it where it is.
fn outputs() -> Worked {
    Worked::of_lines(
        "outputs",
        &[
            ("0102", "0000"),
            ("0200000081", "0001"),
            ("05", "0002008010010000"),
            ("0600008001", "0002"),
            ("05", "0002018011000000"),
            ("0600008081", "0002"),
            ("05", "0002008010010010"),
            ("0600000081", "0000"),
            ("05", "0002008010010000"),
        ],
    )
}

/// Link 0 sets field 1 and reads 0, then 2, then nothing: moved 0, though the
/// removal moves field 1, and the plan lists 1 where its read fields let it. At
/// last it reads 0 and 1 and sets 2.
fn fields_read() -> Worked {
    Worked::of_lines(
        "fields read",
        &[
            ("0103", "0000"),
            ("0200000081", "0001"),
            ("05", "0003008010010000028012"),
            ("0600008102", "0000"),
            ("05", "0003008010028012010000"),
            ("06000081", "0000"),
            ("05", "0003008010010000028012"),
            ("060000000182", "0002"),
            ("05", "0003008010018011020000"),
        ],
    )
}

/// Link 2 (level 3) sets field 0 and link 0 (required, outputs 0 and 1) sets 1 and
/// reads 0. Links 1 (level 5) and 3 (level 4), which may set only 1, wait. The stay
/// of 1 is the first.
const BEFORE: [(&str, &str); 7] = [
    ("0102", "0000"),
    ("0200008081", "0001"),
    ("02020380", "0002"),
    ("02010581", "0000"),
    ("02030481", "0000"),
    ("0401", "0000"),
    ("05", "0002000203010003"),
];

/// By Remove and Add: without link 2 link 3 sets 1 and link 0 turns to 0, moved 2.
/// Both strengths are 4, so link 2 takes 0 again: link 0 turns back to 1 and link 3
/// waits, moved 2.
fn one_after_the_other() -> Worked {
    let rest = [
        ("0302", "0002"),
        ("05", "0002010304000004"),
        ("02020380", "0002"),
        ("05", "0002000203010003"),
    ];
    Worked::of_lines("one after the other", &[&BEFORE[..], &rest].concat())
}

/// The same by a change: moved 0. To level 2 it is the same. To level 4 link 2
/// waits after the removal, since equal is not blocked: moved 2, though its adding
/// moves nothing. Back at level 3 it takes 0 as above.
fn as_one() -> Worked {
    let rest = [
        ("06020380", "0000"),
        ("05", "0002000203010003"),
        ("06020280", "0000"),
        ("05", "0002000202010002"),
        ("06020480", "0002"),
        ("05", "0002010304000004"),
        ("06020380", "0002"),
        ("05", "0002000203010003"),
    ];
    Worked::of_lines("as one", &[&BEFORE[..], &rest].concat())
}

/// Link 0 (required, outputs 0 and 1) sets 1, link 1 (level 3) sets 0, which link 0
/// reads, and the stay of 1 is the first. When link 1 goes to field 2, field 0 is
/// left to its stay, level 17; the stay of 1, level 16, is blocked, sets 1, and link
/// 0 turns to 0: moved 3. Back at field 0 link 1 turns link 0 to 1 again, moved 3.
fn stay_found_blocked() -> Worked {
    Worked::of_lines(
        "stay found blocked",
        &[
            ("0103", "0000"),
            ("0200008081", "0001"),
            ("02010380", "0002"),
            ("0401", "0000"),
            ("05", "0003000103010003028012"),
            ("06010582", "0003"),
            ("05", "0003018010000010020105"),
            ("06010380", "0003"),
            ("05", "0003000103010003028012"),
        ],
    )
}

/// A change leaves the order of the stays, accepted or refused: 2, 1, 0 with levels
/// 16, 17, 18. Of fields 0 and 1 link 0 takes 0, the weakest.
fn stay_order() -> Worked {
    Worked::of_lines(
        "stay order",
        &[
            ("0103", "0000"),
            ("0401", "0000"),
            ("0402", "0000"),
            ("02000082", "0001"),
            ("05", "0003008012018011020000"),
            ("0600008081", "0002"),
            ("05", "0003018011000011028010"),
            ("06000083", "FF07"),
            ("05", "0003018011000011028010"),
        ],
    )
}

/// "NoSuchLink in LinkTaken's place": a number must be in use, and one that is in
/// use is no fault. Behind the change the number is still taken, once.
fn number_taken() -> Worked {
    Worked::of_lines(
        "number taken",
        &[
            ("06000080", "FF04"),
            ("0102", "0000"),
            ("06000080", "FF09"),
            ("02000080", "0001"),
            ("06000080", "0000"),
            ("06010080", "FF09"),
            ("02000080", "FF08"),
            ("06000081", "0002"),
            ("0300", "0001"),
            ("0300", "FF09"),
            ("06000081", "FF09"),
            ("05", "0002008010018011"),
        ],
    )
}
