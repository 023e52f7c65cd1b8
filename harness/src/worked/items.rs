//! The items of document 01: "One run in full", the empty input, and every
//! item of "Neighbouring commands", with what document 02's requests 1 and 6 make
//! of them. Where an item says who holds a field, a plan follows that shows it.

use super::Worked;

/// Lines on an unopened panel, each with its reply, and the tally after them.
pub struct Item {
    pub name: &'static str,
    pub lines: &'static [(&'static str, &'static str)],
    pub tally: &'static str,
}

/// Every item.
pub fn all() -> Vec<Worked> {
    let tables: [&[Item]; 11] = [
        &[ONE_RUN_IN_FULL, EMPTY_INPUT],
        &SIZES,
        &[STAY_IS_DISPLACED, CONFLICT, LOOP],
        &[EQUAL_LEVELS],
        &[TOUCH],
        &[PLAN_BEFORE_OPENING, OPENED_TWICE],
        &[NO_OUTPUT, BIT_6],
        &BAD_HEX,
        &LEVELS_AND_NUMBERS,
        &[LAST_FIELD],
        &[EIGHT_FIELD_BYTES],
    ];
    let items = tables.into_iter().flatten();
    items
        .map(|item| Worked::new(item.name, item.lines, item.tally))
        .collect()
}

pub const ONE_RUN_IN_FULL: Item = Item {
    name: "one run in full",
    lines: &[
        ("0103", "0000"),
        ("0200008081", "0001"),
        ("05", "0003008010010010028012"),
        ("0401", "0002"),
        ("05", "0003018010000010028012"),
        ("0300", "0001"),
        ("0300", "FF09"),
        ("05", "0003008011018010028012"),
    ],
    tally: "EE00000800000700000109",
};

/// "Empty input gives only EE00000000000000000000."
pub const EMPTY_INPUT: Item = Item {
    name: "empty input",
    lines: &[],
    tally: "EE00000000000000000000",
};

/// P "0101 is accepted; 0100 gives FF05. 0140 accepted, 0141 FF05."
pub const SIZES: [Item; 4] = [
    Item {
        name: "size 1",
        lines: &[("0101", "0000")],
        tally: "EE00000100000100000000",
    },
    Item {
        name: "size 0",
        lines: &[("0100", "FF05")],
        tally: "EE00000100000000000105",
    },
    Item {
        name: "size 64",
        lines: &[("0140", "0000")],
        tally: "EE00000100000100000000",
    },
    Item {
        name: "size 65",
        lines: &[("0141", "FF05")],
        tally: "EE00000100000000000105",
    },
];

/// P "0102, 0200008081, 02010080: link 1 is permitted only field 0. Field 0 has
/// strength 16, so it is taken, moved 1, field 0's stay waits." Document 02, request
/// 6: "The case in which link 1 is permitted only field 0 now gives moved 2", field 0
/// and field 1, whose link 0 reads it.
pub const STAY_IS_DISPLACED: Item = Item {
    name: "stay is displaced",
    lines: &[
        ("0102", "0000"),
        ("0200008081", "0001"),
        ("05", "0002008010010010"),
        ("02010080", "0002"),
        ("05", "0002000100010000"),
    ],
    tally: "EE00000500000500000000",
};

/// P "0102, 02000081 then 02010081: second reply FF0A."
pub const CONFLICT: Item = Item {
    name: "conflict",
    lines: &[
        ("0102", "0000"),
        ("02000081", "0001"),
        ("02010081", "FF0A"),
        ("05", "0002008010010000"),
    ],
    tally: "EE0000040000030000010A",
};

/// P "0102, 0200000081 (link 0 reads 0, sets 1), then 0201008001 (reads 1, sets
/// 0): FF0B, and the plan still gives field 0 its stay."
pub const LOOP: Item = Item {
    name: "loop",
    lines: &[
        ("0102", "0000"),
        ("0200000081", "0001"),
        ("0201008001", "FF0B"),
        ("05", "0002008010010000"),
    ],
    tally: "EE0000040000030000010B",
};

/// P "0101, 02000580, 02010580: second accepted, moved 0, waiting."
/// P "then 02020480: moved 1, link 0 waits."
/// P "then 0302: link 0, not link 1, holds field 0; moved 1."
pub const EQUAL_LEVELS: Item = Item {
    name: "equal levels",
    lines: &[
        ("0101", "0000"),
        ("02000580", "0001"),
        ("02010580", "0000"),
        ("05", "0001000005"),
        ("02020480", "0001"),
        ("05", "0001000204"),
        ("0302", "0001"),
        ("05", "0001000005"),
    ],
    tally: "EE00000800000800000000",
};

/// P "0101, 0400: moved 0."
pub const TOUCH: Item = Item {
    name: "touch",
    lines: &[("0101", "0000"), ("0400", "0000")],
    tally: "EE00000200000200000000",
};

/// P "05 before opening: FF04."
pub const PLAN_BEFORE_OPENING: Item = Item {
    name: "plan before opening",
    lines: &[("05", "FF04")],
    tally: "EE00000100000000000104",
};

/// P "0102 twice: second FF03."
pub const OPENED_TWICE: Item = Item {
    name: "opened twice",
    lines: &[("0102", "0000"), ("0102", "FF03")],
    tally: "EE00000200000100000103",
};

/// P "0102, 02000000 (no output): FF06".
pub const NO_OUTPUT: Item = Item {
    name: "no output",
    lines: &[("0102", "0000"), ("02000000", "FF06")],
    tally: "EE00000200000100000106",
};

/// P "0102, 020000C0: FF02."
pub const BIT_6: Item = Item {
    name: "bit 6",
    lines: &[("0102", "0000"), ("020000C0", "FF02")],
    tally: "EE00000200000100000102",
};

/// "010a, 010 and an empty line: FF01." Document 02, request 1: "Document 01's
/// FF01 cases gain the two bytes", the offset of the a and the two lengths.
pub const BAD_HEX: [Item; 3] = [
    Item {
        name: "lower case",
        lines: &[("010a", "FF010003")],
        tally: "EE00000100000000000101",
    },
    Item {
        name: "odd count",
        lines: &[("010", "FF010003")],
        tally: "EE00000100000000000101",
    },
    Item {
        name: "empty line",
        lines: &[("", "FF010000")],
        tally: "EE00000100000000000101",
    },
];

/// "On an open panel an added link of level 0F is accepted, 10 gives FF06; id
/// 7F is accepted, 80 gives FF06."
pub const LEVELS_AND_NUMBERS: [Item; 4] = [
    Item {
        name: "level 0F",
        lines: &[("0101", "0000"), ("02000F80", "0001")],
        tally: "EE00000200000200000000",
    },
    Item {
        name: "level 10",
        lines: &[("0101", "0000"), ("02001080", "FF06")],
        tally: "EE00000200000100000106",
    },
    Item {
        name: "number 7F",
        lines: &[("0101", "0000"), ("027F0080", "0001")],
        tally: "EE00000200000200000000",
    },
    Item {
        name: "number 80",
        lines: &[("0101", "0000"), ("02800080", "FF06")],
        tally: "EE00000200000100000106",
    },
];

/// "With 64 fields 043F is accepted, 0440 gives FF07."
pub const LAST_FIELD: Item = Item {
    name: "last field",
    lines: &[("0140", "0000"), ("043F", "0000"), ("0440", "FF07")],
    tally: "EE00000300000200000107",
};

/// "Eight field bytes are taken, nine give FF02."
pub const EIGHT_FIELD_BYTES: Item = Item {
    name: "eight field bytes",
    lines: &[
        ("0140", "0000"),
        ("0200008081828384858687", "0001"),
        ("020100808182838485868788", "FF02"),
    ],
    tally: "EE00000300000200000102",
};
