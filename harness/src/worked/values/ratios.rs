//! Ratios: "higher field = lower × p / q, or the reverse with q and p swapped,
//! p and q from 1 to 65,535, rounded to nearest, halves away from zero".

use super::{changed, owned, ratio, store, Valued, Worked, GREATEST, LEAST};

/// Every text of this file.
pub fn all() -> Vec<Valued> {
    vec![airflow(), breath(), upward(), downward(), bytes()]
}

/// Airflow in millilitres per minute (field 0) and per second (field 1), as 1 to
/// 60. 30,000 a minute are 500 a second. Then somebody types 750 a second: the
/// link turns to field 0, and 750 × 60 is 45,000. Then -30 a minute, of which a
/// half is rounded away from zero.
fn airflow() -> Valued {
    Valued::new("airflow per minute and per second")
        .part(
            &[
                ("0104", "0000"),
                ("0200008081", "0001"),
                ("0800010001003C", "0000"),
            ],
            &[0, 0],
        )
        .part(&[("070000007530", "0002")], &[30_000, 500])
        .part(&[("0701000002EE", "0002")], &[45_000, 750])
        .part(&[("0700FFFFFFE2", "0002")], &[-30, -1])
}

/// `samples/airflow.txt`, the same with plans. The last value is refused: 60 times
/// as much a minute is outside the limits.
pub fn sample() -> Worked {
    let lines = owned(&[
        ("0102", "0000"),
        ("0200008081", "0001"),
        ("0800010001003C", "0000"),
        ("070000007530", "0002"),
        ("05", "0002008010010010"),
        ("0701000002EE", "0002"),
        ("05", "0002018010000010"),
        ("07017FFFFFFF", "FF0D"),
    ]);
    Worked::of_lines("airflow sample", &lines)
}

/// The same with the volume of a breath of four seconds (field 2), 4 to 1 from
/// airflow per second. A volume of 2,400 turns both links: 600 a second, 36,000 a
/// minute. 500 a second turns link 1 back to field 2 and leaves link 0 at field 0,
/// downstream of field 1: 2,000 and 30,000.
fn breath() -> Valued {
    Valued::new("breath volume")
        .part(
            &[
                ("0105", "0000"),
                ("0200008081", "0001"),
                ("0201008182", "0001"),
                ("0800010001003C", "0000"),
                ("08010100040001", "0000"),
            ],
            &[0, 0, 0],
        )
        .part(&[("070000007530", "0003")], &[30_000, 500, 2_000])
        .part(&[("070200000960", "0003")], &[36_000, 600, 2_400])
        .part(&[("0701000001F4", "0003")], &[30_000, 500, 2_000])
}

/// A value, p, q, and what value × p / q is rounded to; none outside the limits.
type Case = (i32, u16, u16, Option<i32>);

/// Halves of both signs, and the numbers next to them.
const HALVES: [Case; 36] = [
    (1, 1, 2, Some(1)),
    (-1, 1, 2, Some(-1)),
    (2, 1, 2, Some(1)),
    (-2, 1, 2, Some(-1)),
    (3, 1, 2, Some(2)),
    (-3, 1, 2, Some(-2)),
    (5, 1, 2, Some(3)),
    (-5, 1, 2, Some(-3)),
    (7, 1, 2, Some(4)),
    (-7, 1, 2, Some(-4)),
    (29, 1, 60, Some(0)),
    (30, 1, 60, Some(1)),
    (89, 1, 60, Some(1)),
    (90, 1, 60, Some(2)),
    (150, 1, 60, Some(3)),
    (-29, 1, 60, Some(0)),
    (-30, 1, 60, Some(-1)),
    (-90, 1, 60, Some(-2)),
    (-150, 1, 60, Some(-3)),
    (1, 3, 2, Some(2)),
    (-1, 3, 2, Some(-2)),
    (3, 3, 2, Some(5)),
    (-3, 3, 2, Some(-5)),
    (1, 1, 3, Some(0)),
    (-1, 1, 3, Some(0)),
    (2, 1, 3, Some(1)),
    (-2, 1, 3, Some(-1)),
    (32_766, 1, 65_534, Some(0)),
    (32_767, 1, 65_534, Some(1)),
    (-32_766, 1, 65_534, Some(0)),
    (-32_767, 1, 65_534, Some(-1)),
    (32_767, 1, 65_535, Some(0)),
    (32_768, 1, 65_535, Some(1)),
    // 32,767.5
    (32_767, 65_535, 65_534, Some(32_768)),
    (-32_767, 65_535, 65_534, Some(-32_768)),
    // 32,766.49998
    (32_766, 65_535, 65_534, Some(32_766)),
];

/// Results at the limits and next to them.
const LIMITS: [Case; 34] = [
    (GREATEST, 1, 1, Some(GREATEST)),
    (LEAST, 1, 1, Some(LEAST)),
    (GREATEST, 65_535, 65_535, Some(GREATEST)),
    (LEAST, 65_535, 65_535, Some(LEAST)),
    (0, 65_535, 1, Some(0)),
    // 1,073,741,823.5, of both signs
    (GREATEST, 1, 2, Some(1_073_741_824)),
    (-GREATEST, 1, 2, Some(-1_073_741_824)),
    (LEAST, 1, 2, Some(-1_073_741_824)),
    // 2,147,450,878.500008 and -2,147,450,879.499992
    (GREATEST, 65_534, 65_535, Some(2_147_450_879)),
    (LEAST, 65_534, 65_535, Some(-2_147_450_879)),
    (1_073_741_823, 2, 1, Some(2_147_483_646)),
    // 2,147,483,648, one past the limit
    (1_073_741_824, 2, 1, None),
    (-1_073_741_824, 2, 1, Some(LEAST)),
    (-1_073_741_825, 2, 1, None),
    (715_827_882, 3, 1, Some(2_147_483_646)),
    (715_827_883, 3, 1, None),
    (-715_827_882, 3, 1, Some(-2_147_483_646)),
    // -2,147,483,649, one past the limit
    (-715_827_883, 3, 1, None),
    (1_431_655_764, 3, 2, Some(2_147_483_646)),
    // 2,147,483,647.5, rounded to one past the limit
    (1_431_655_765, 3, 2, None),
    // -2,147,483,647.5, rounded to the limit
    (-1_431_655_765, 3, 2, Some(LEAST)),
    (-1_431_655_766, 3, 2, None),
    (65_536, 65_535, 2, Some(2_147_450_880)),
    // 2,147,483,647.5 and -2,147,483,647.5
    (65_537, 65_535, 2, None),
    (-65_537, 65_535, 2, Some(LEAST)),
    (-65_538, 65_535, 2, None),
    (32_768, 65_535, 1, Some(2_147_450_880)),
    (32_769, 65_535, 1, None),
    (-32_768, 65_535, 1, Some(-2_147_450_880)),
    (-32_769, 65_535, 1, None),
    (GREATEST, 65_535, 1, None),
    (LEAST, 65_535, 1, None),
    // 32,768.499992 and -32,768.500008
    (GREATEST, 1, 65_535, Some(32_768)),
    (LEAST, 1, 65_535, Some(-32_769)),
];

/// Each case from the lower field to the higher.
fn upward() -> Valued {
    cases("ratio, higher from lower", "0200000081", |case| {
        let (value, p, q, result) = case;
        let lines = [ratio(0, p, q), store(0, value)];
        (lines, result.map(|result| [value, result]))
    })
}

/// Each case from the higher field to the lower, with p and q exchanged.
fn downward() -> Valued {
    cases("ratio, lower from higher", "0200008001", |case| {
        let (value, p, q, result) = case;
        let lines = [ratio(0, q, p), store(1, value)];
        (lines, result.map(|result| [result, value]))
    })
}

/// A line of kind 08 and one of kind 07 for each case, and the values after
/// them; none where the second one is refused, so that the values stay.
fn cases(name: &str, link: &str, case: impl Fn(Case) -> ([String; 2], Option<[i32; 2]>)) -> Valued {
    let opening = [("0104", "0000"), (link, "0001")];
    let mut text = Valued::new(name).part(&opening, &[0, 0]);
    let mut values = [0, 0];
    for ([formula, stored], after) in HALVES.into_iter().chain(LIMITS).map(case) {
        let formula = (formula.as_str(), "0000");
        text = match after {
            Some(after) => {
                let reply = changed(&values, &after);
                values = after;
                text.part(&[formula, (&stored, &reply)], &values)
            }
            None => text.unsettled(&[formula, (&stored, "FF0D")], &values),
        };
    }
    text
}

/// Numbers of several bytes are "most significant first", values in "two's
/// complement": 258 times and a 258th, and each byte of a value.
fn bytes() -> Valued {
    Valued::new("bytes of numbers")
        .part(
            &[
                ("0104", "0000"),
                ("0200000081", "0001"),
                ("08000101020001", "0000"),
                ("070000000003", "0002"),
            ],
            &[3, 774],
        )
        .part(
            &[("08000100010102", "0000"), ("070000000306", "0002")],
            &[774, 3],
        )
        .part(
            &[("08000100010001", "0000"), ("070000000001", "0002")],
            &[1, 1],
        )
        .part(&[("070000000100", "0002")], &[256, 256])
        .part(&[("070000010000", "0002")], &[65_536, 65_536])
        .part(&[("070001000000", "0002")], &[16_777_216, 16_777_216])
        .part(&[("070012345678", "0002")], &[305_419_896, 305_419_896])
        .part(&[("07007FFFFFFF", "0002")], &[GREATEST, GREATEST])
        .part(&[("070080000000", "0002")], &[LEAST, LEAST])
        .part(&[("0700FFFFFFFF", "0002")], &[-1, -1])
        .part(&[("0700FFFFFF00", "0002")], &[-256, -256])
        .part(&[("070080000001", "0002")], &[-GREATEST, -GREATEST])
}
