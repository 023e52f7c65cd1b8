//! Counts of adds, removals, touches and changes: "fields whose setter changed, and
//! all fields downstream of these in the state after the command". A field is
//! downstream of those that its setter reads, "directly or through others".

use super::super::{add, push, Lines};
use super::Worked;

/// Every text of this file.
pub fn all() -> Vec<Worked> {
    vec![
        case_of_the_request(),
        chain_of_reads(),
        two_ways(),
        waiting_link_reads_nothing(),
        nothing_changed(),
        removal_with_nothing_blocked(),
        removal_that_turns(),
        touch(),
        change_of_the_fields_read(),
        change_that_turns(),
        change_that_waits(),
        change_of_both_halves(),
        downstream_before_alone(),
        downstream_after_alone(),
        row_of_64(),
        star_of_64(),
    ]
}

/// "Case: two fields, required link reading 0 and setting 1, then a level 3 link
/// setting 0 alone: the second reply was 0001 and is now 0002."
fn case_of_the_request() -> Worked {
    Worked::of_lines(
        "case of the request",
        &[
            ("0102", "0000"),
            ("0200000081", "0001"),
            ("02010380", "0002"),
            ("05", "0002000103010000"),
        ],
    )
}

/// Link 0 reads 0 and sets 1, link 1 reads 1 and sets 2, link 2 reads 2 and sets 3.
/// Each is added before any other reads its field. Link 3 sets 0: 1 is downstream
/// directly, 2 and 3 through others. Field 4, which link 4 sets, is beside them.
///
/// Without link 1 the stay sets 2, and only 3 is downstream; 1, whose link goes next,
/// and then 0 are read by none. Link 1 comes again: 2 and 3.
fn chain_of_reads() -> Worked {
    Worked::of_lines(
        "chain of reads",
        &[
            ("0105", "0000"),
            ("0200000081", "0001"),
            ("0201000182", "0001"),
            ("0202000283", "0001"),
            ("02030380", "0004"),
            ("02040384", "0001"),
            ("05", "0005000303010000020100030200040403"),
            ("0301", "0002"),
            ("0300", "0001"),
            ("0303", "0001"),
            ("0201000182", "0002"),
            ("05", "0005008010018011020100030200040403"),
        ],
    )
}

/// Links 0 and 1 read 0 and set 1 and 2, link 2 reads both and sets 3: downstream of
/// 0 by two ways, and counted once. Link 2, which comes first, has 3 downstream of 1
/// and of 2.
fn two_ways() -> Worked {
    Worked::of_lines(
        "two ways",
        &[
            ("0105", "0000"),
            ("020200010283", "0001"),
            ("0200000081", "0002"),
            ("0201000082", "0002"),
            ("02030080", "0004"),
            ("05", "0005000300010000020100030200048014"),
            ("0303", "0004"),
            ("0302", "0001"),
        ],
    )
}

/// Link 0 sets 1 and reads nothing; link 1 (level 5), which would read 0, waits for 1.
/// A link for 0 redraws 0 alone, since no setter reads it. Then link 1 sets 1, and
/// the link for 0 takes 1 along when it goes.
fn waiting_link_reads_nothing() -> Worked {
    Worked::of_lines(
        "waiting link reads nothing",
        &[
            ("0102", "0000"),
            ("02000081", "0001"),
            ("0201050081", "0000"),
            ("02020380", "0001"),
            ("0300", "0001"),
            ("05", "0002000203010105"),
            ("0302", "0002"),
        ],
    )
}

/// Where no setter changes nothing is redrawn, whatever is read: a link that waits
/// comes, is changed and goes, fields that are read and set are touched, a link gets a
/// formula. Link 0 reads 0 and sets 1, link 1 reads 1 and sets 2.
fn nothing_changed() -> Worked {
    Worked::of_lines(
        "nothing changed",
        &[
            ("0103", "0000"),
            ("0200000081", "0001"),
            ("0201000182", "0001"),
            ("0202050081", "0000"),
            ("06020981", "0000"),
            ("0302", "0000"),
            ("0400", "0000"),
            ("0401", "0000"),
            ("0402", "0000"),
            ("08000100010002", "0000"),
            ("05", "0003008012010000020100"),
        ],
    )
}

/// Link 0 (level 3) sets 0, which link 1 reads to set 1, which link 2 reads to set 2.
/// When link 0 goes nothing is blocked; the stay sets 0, and 1 and 2 are downstream.
/// Link 2 sets the last one.
fn removal_with_nothing_blocked() -> Worked {
    Worked::of_lines(
        "removal with nothing blocked",
        &[
            ("0104", "0000"),
            ("02000380", "0001"),
            ("0201000081", "0001"),
            ("0202000182", "0001"),
            ("0300", "0003"),
            ("05", "0004008010010100020200038013"),
            ("0302", "0001"),
            ("0301", "0001"),
        ],
    )
}

/// Link 1 (level 3) sets 0, which link 0 (required, outputs 0 and 1) reads to set 1.
/// Link 2 (level 4), which may set only 1, waits. Link 3 reads 0 and sets 2, link 4
/// reads 1 and sets 3. When link 1 goes link 2 is blocked and sets 1, link 0 turns to
/// 0 and reads 1: both have another setter, and 2 and 3 are downstream.
fn removal_that_turns() -> Worked {
    Worked::of_lines(
        "removal that turns",
        &[
            ("0105", "0000"),
            ("0200008081", "0001"),
            ("02010380", "0002"),
            ("02020481", "0000"),
            ("0203000082", "0001"),
            ("0204000183", "0001"),
            ("05", "0005000103010003020300030400048014"),
            ("0301", "0004"),
            ("05", "0005010204000004020300030400048014"),
        ],
    )
}

/// Link 0 (outputs 0 and 1) sets 1, link 1 reads 1 and sets 2, link 2 reads 0 and sets
/// 3. The touch of 1 turns link 0 to 0: both have another setter, 2 and 3 are
/// downstream of one of them. The same when the touch of 0 turns it back.
fn touch() -> Worked {
    Worked::of_lines(
        "touch with readers",
        &[
            ("0105", "0000"),
            ("0200008081", "0001"),
            ("0201000182", "0001"),
            ("0202000083", "0001"),
            ("0401", "0004"),
            ("05", "0005018010000010020100030200048014"),
            ("0404", "0000"),
            ("0400", "0004"),
            ("05", "0005008010010010020100030200048011"),
        ],
    )
}

/// Link 0 sets 1, which link 1 reads to set 2. It is changed to read 3 in place of 0,
/// then both, then nothing: 1 has the same setter each time, so nothing is redrawn.
fn change_of_the_fields_read() -> Worked {
    Worked::of_lines(
        "change of the fields read",
        &[
            ("0104", "0000"),
            ("0200000081", "0001"),
            ("0201000182", "0001"),
            ("0600008103", "0000"),
            ("05", "0004008010038013010000020100"),
            ("060005008103", "0000"),
            ("06000081", "0000"),
            ("05", "0004008010010000020100038013"),
        ],
    )
}

/// Link 1 (level 3) sets 0, which link 0 (required, outputs 0 and 1) reads to set 1.
/// Link 2 reads 1 and sets 2, link 3 reads 0 and sets 3. The stay of 1 is the first.
///
/// Link 1 goes to field 4: the stay of 1 is blocked and sets 1, link 0 turns to 0. So
/// 0, 1 and 4 have another setter, and 2 and 3 are downstream. The same on the way
/// back. Field 5 is beside them.
fn change_that_turns() -> Worked {
    Worked::of_lines(
        "change that turns",
        &[
            ("0106", "0000"),
            ("0200008081", "0001"),
            ("02010380", "0002"),
            ("0202000182", "0001"),
            ("0203000083", "0001"),
            ("0401", "0000"),
            ("06010384", "0005"),
            ("05", "0006018010000010020200030300040103058015"),
            ("06010380", "0005"),
            ("05", "0006000103010003020200030300048014058015"),
        ],
    )
}

/// Link 0 (level 3) sets 0, which link 1 (required) reads to set 1. Changed to wait for
/// 1 it leaves 0 to its stay, and 1 is downstream. Changed back it takes 0 again.
fn change_that_waits() -> Worked {
    Worked::of_lines(
        "change that waits",
        &[
            ("0102", "0000"),
            ("02000380", "0001"),
            ("0201000081", "0001"),
            ("06000381", "0002"),
            ("05", "0002008010010100"),
            ("06000380", "0002"),
            ("05", "0002000003010100"),
        ],
    )
}

/// Link 2 (level 3) sets 0, which link 0 (required, outputs 0 and 1) reads to set 1;
/// link 3 (level 4), which may set only 1, waits, and link 4 reads 1 and sets 2. The
/// stay of 1 is the first.
///
/// By Remove and Add fields 0 and 1 get other setters each time, and 2 is downstream.
/// As a change the setters before are those after both: nothing is redrawn.
fn change_of_both_halves() -> Worked {
    Worked::of_lines(
        "change of both halves",
        &[
            ("0103", "0000"),
            ("0200008081", "0001"),
            ("02020380", "0002"),
            ("02030481", "0000"),
            ("0204000182", "0001"),
            ("0401", "0000"),
            ("0302", "0003"),
            ("05", "0003010304000004020400"),
            ("02020380", "0003"),
            ("05", "0003000203010003020400"),
            ("06020280", "0000"),
            ("05", "0003000202010002020400"),
        ],
    )
}

/// A field that was downstream before and is not after. Link 3 (level 5) sets 0, link
/// 0 (level 3) reads 0 and sets 1, link 1 (level 2, outputs 0, 1 and 2) sets 2, and
/// link 2 (level 5) waits for 2.
///
/// Link 0 is changed to read nothing. Without it link 2 sets 2 and link 1 turns to 1,
/// of strength 5 as 0 and 2 are. Then link 0 takes 1 back: link 1 turns on to 0, the
/// lower of the two, and link 3 waits. So 0 and 2 have another setter; 1 has its own
/// and no longer reads 0.
///
/// Only a change can show this. Elsewhere a setter that stayed reads the same fields,
/// so that what was downstream still is: of the last field on the way to it whose
/// setter changed.
fn downstream_before_alone() -> Worked {
    Worked::of_lines(
        "downstream before alone",
        &[
            ("0103", "0000"),
            ("02030580", "0001"),
            ("0200030081", "0001"),
            ("020102808182", "0001"),
            ("02020582", "0000"),
            ("05", "0003000305010003020105"),
            ("06000381", "0002"),
            ("05", "0003010003020205000105"),
        ],
    )
}

/// The other way round. Link 0 (level 3) sets 1, link 1 (level 5, outputs 0 and 1)
/// reads 1 and sets 0, and link 2 (level 5) waits for 0. Link 0 is changed to read 0.
/// Without it link 2 sets 0 and link 1 turns to 1, of strength 5; then link 0 takes 1
/// back, and link 1, of level 5, waits. So 0 has another setter, and 1, which has its
/// own, is downstream of it now.
fn downstream_after_alone() -> Worked {
    Worked::of_lines(
        "downstream after alone",
        &[
            ("0102", "0000"),
            ("02000381", "0001"),
            ("0201058081", "0001"),
            ("02020580", "0000"),
            ("05", "0002010003000105"),
            ("0600030081", "0002"),
            ("05", "0002000205010003"),
        ],
    )
}

/// 63 links in a row: link i reads i - 1 and sets i. A link for 0 redraws all 64
/// fields, and so does its removal. Without link 32 the fields from 32 on are redrawn,
/// and then the link for 0 redraws only those below.
fn row_of_64() -> Worked {
    let mut lines = Lines::new();
    push(&mut lines, &[("0140", "0000")]);
    for id in 1..64 {
        push(&mut lines, &[(&add(id, 0, [id - 1, id | 0x80]), "0001")]);
    }
    push(&mut lines, &[("02000380", "0040"), ("0300", "0040")]);
    push(&mut lines, &[("0320", "0020"), ("02000380", "0020")]);
    Worked::of_lines("row of 64", &lines)
}

/// 63 links that all read field 0, each of which sets another field: a link for 0
/// redraws all. That link i goes redraws only i.
fn star_of_64() -> Worked {
    let mut lines = Lines::new();
    push(&mut lines, &[("0140", "0000")]);
    for id in 1..64 {
        push(&mut lines, &[(&add(id, 0, [0, id | 0x80]), "0001")]);
    }
    push(&mut lines, &[("02000380", "0040"), ("033F", "0001")]);
    push(&mut lines, &[("0300", "003F"), ("0301", "0001")]);
    Worked::of_lines("star of 64", &lines)
}
