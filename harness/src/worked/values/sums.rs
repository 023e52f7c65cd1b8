//! Sums: "covered field f the sum of the other covered fields, at least one; a
//! link that sets another one takes f less the rest". Only a link's final result
//! is held to the limits.

use super::{Valued, GREATEST, LEAST};

/// Every text of this file.
pub fn all() -> Vec<Valued> {
    vec![
        sum_of_three(),
        sum_of_one(),
        sum_at_the_limits(),
        difference_at_the_limits(),
        partial_sums_beyond_the_limits(),
        partial_differences_beyond_the_limits(),
        sum_of_seven(),
    ]
}

/// Field 3 is the sum of 0, 1 and 2. The link may set each of them.
///
/// 10, 20 and 30 make 60. A total of 100 turns the link to field 0, touched
/// first and so the weakest: 100 - 20 - 30 is 50. Then field 1 is to be the sum:
/// the link still sets field 0, which is 20 - 5 - 100, and the touch of 0 turns it
/// to field 1, now the weakest, which is 0 + 5 + 100.
fn sum_of_three() -> Valued {
    Valued::new("sum of three")
        .part(
            &[
                ("0106", "0000"),
                ("02000080818283", "0001"),
                ("08000203", "0000"),
            ],
            &[0, 0, 0, 0],
        )
        .part(&[("07000000000A", "0002")], &[10, 0, 0, 10])
        .part(&[("070100000014", "0002")], &[10, 20, 0, 30])
        .part(&[("07020000001E", "0002")], &[10, 20, 30, 60])
        .part(&[("070300000064", "0002")], &[50, 20, 30, 100])
        .unsettled(&[("08000201", "0000")], &[50, 20, 30, 100])
        .part(&[("070200000005", "0002")], &[-85, 20, 5, 100])
        .part(&[("070000000000", "0002")], &[0, 105, 5, 100])
}

/// Over two fields a sum is the other field, in each direction and for each f.
fn sum_of_one() -> Valued {
    Valued::new("sum of one")
        .part(
            &[
                ("0104", "0000"),
                ("0200008081", "0001"),
                ("08000201", "0000"),
                ("070000000007", "0002"),
            ],
            &[7, 7],
        )
        .part(&[("0701FFFFFFF7", "0002")], &[-9, -9])
        .part(
            &[("08000200", "0000"), ("070180000000", "0002")],
            &[LEAST, LEAST],
        )
        .part(&[("07007FFFFFFF", "0002")], &[GREATEST, GREATEST])
}

/// Field 2 is the sum of 0 and 1.
fn sum_at_the_limits() -> Valued {
    Valued::new("sum at the limits")
        .part(
            &[
                ("0105", "0000"),
                ("020000000182", "0001"),
                ("08000202", "0000"),
                ("07007FFFFFFF", "0002"),
            ],
            &[GREATEST, 0, GREATEST],
        )
        .part(&[("070100000001", "FF0D")], &[GREATEST, 0, GREATEST])
        .part(&[("07017FFFFFFF", "FF0D")], &[GREATEST, 0, GREATEST])
        .part(&[("0701FFFFFFFF", "0002")], &[GREATEST, -1, GREATEST - 1])
        .part(&[("070180000000", "0002")], &[GREATEST, LEAST, -1])
        .part(&[("070000000000", "0002")], &[0, LEAST, LEAST])
        .part(&[("0700FFFFFFFF", "FF0D")], &[0, LEAST, LEAST])
        .part(&[("070080000000", "FF0D")], &[0, LEAST, LEAST])
        .part(&[("070000000001", "0002")], &[1, LEAST, LEAST + 1])
}

/// Field 2 is the sum of 0 and 1, and the link sets 0: field 2 less field 1.
fn difference_at_the_limits() -> Valued {
    Valued::new("difference at the limits")
        .part(
            &[
                ("0105", "0000"),
                ("020000800102", "0001"),
                ("08000202", "0000"),
                ("07027FFFFFFF", "0002"),
            ],
            &[GREATEST, 0, GREATEST],
        )
        .part(&[("0701FFFFFFFF", "FF0D")], &[GREATEST, 0, GREATEST])
        .part(&[("070180000000", "FF0D")], &[GREATEST, 0, GREATEST])
        .part(&[("070100000001", "0002")], &[GREATEST - 1, 1, GREATEST])
        .part(&[("0702FFFFFFFF", "0002")], &[-2, 1, -1])
        .part(&[("070180000000", "0002")], &[GREATEST, LEAST, -1])
        .part(&[("070200000000", "FF0D")], &[GREATEST, LEAST, -1])
        .part(&[("070280000000", "0002")], &[0, LEAST, LEAST])
        .part(&[("070100000001", "FF0D")], &[0, LEAST, LEAST])
        .part(&[("070100000000", "0002")], &[LEAST, 0, LEAST])
}

/// Field 4 is the sum of 0 to 3. Added by rising number, twice the greatest or
/// the least value comes up on the way, and the last numbers bring it back; a
/// sum that stays outside the limits is refused.
fn partial_sums_beyond_the_limits() -> Valued {
    const M: i32 = GREATEST;
    Valued::new("partial sums beyond the limits")
        .part(
            &[
                ("0107", "0000"),
                ("0200000001020384", "0001"),
                ("08000204", "0000"),
                ("07007FFFFFFF", "0002"),
                ("070380000000", "0002"),
            ],
            &[M, 0, 0, LEAST, -1],
        )
        .part(&[("07017FFFFFFF", "0002")], &[M, M, 0, LEAST, M - 1])
        .part(&[("070280000000", "0002")], &[M, M, LEAST, LEAST, -2])
        .part(&[("070000000000", "FF0D")], &[M, M, LEAST, LEAST, -2])
        .part(&[("070300000000", "0002")], &[M, M, LEAST, 0, M - 1])
        .part(&[("070000000000", "0002")], &[0, M, LEAST, 0, -1])
        .part(&[("07037FFFFFFF", "0002")], &[0, M, LEAST, M, M - 1])
        .part(&[("070080000000", "0002")], &[LEAST, M, LEAST, M, -2])
        .part(&[("070100000000", "FF0D")], &[LEAST, M, LEAST, M, -2])
        .part(&[("070100000001", "0002")], &[LEAST, 1, LEAST, M, LEAST])
}

/// The same where the link sets field 0: field 4 less the rest, which is outside
/// the limits itself, or comes to be after the first is taken off.
fn partial_differences_beyond_the_limits() -> Valued {
    const M: i32 = GREATEST;
    Valued::new("partial differences beyond the limits")
        .part(
            &[
                ("0107", "0000"),
                ("0200008001020304", "0001"),
                ("08000204", "0000"),
                ("07047FFFFFFF", "0002"),
            ],
            &[M, 0, 0, 0, M],
        )
        .part(&[("07017FFFFFFF", "0002")], &[0, M, 0, 0, M])
        .part(&[("07027FFFFFFF", "0002")], &[-M, M, M, 0, M])
        .part(&[("070380000000", "0002")], &[1, M, M, LEAST, M])
        .part(&[("070480000000", "FF0D")], &[1, M, M, LEAST, M])
        .part(&[("070200000000", "FF0D")], &[1, M, M, LEAST, M])
        .part(&[("070200000001", "0002")], &[M, M, 1, LEAST, M])
        .part(&[("070480000000", "0002")], &[LEAST, M, 1, LEAST, LEAST])
}

/// Eight covered fields: seven times 306,783,378 is 2,147,483,646, and one of
/// them may be one more.
fn sum_of_seven() -> Valued {
    const N: i32 = 306_783_378;
    Valued::new("sum of seven")
        .part(
            &[
                ("010A", "0000"),
                ("0200000001020304050687", "0001"),
                ("08000207", "0000"),
                ("070012492492", "0002"),
                ("070112492492", "0002"),
                ("070212492492", "0002"),
                ("070312492492", "0002"),
                ("070412492492", "0002"),
                ("070512492492", "0002"),
                ("070612492492", "0002"),
            ],
            &[N, N, N, N, N, N, N, GREATEST - 1],
        )
        .part(
            &[("070612492493", "0002"), ("070012492493", "FF0D")],
            &[N, N, N, N, N, N, N + 1, GREATEST],
        )
        .part(
            &[("070680000000", "0002"), ("070180000000", "FF0D")],
            &[N, N, N, N, N, N, LEAST, -306_783_380],
        )
}
