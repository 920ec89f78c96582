//! Files and buffers that are refused with 18, and that 18 comes before 19.

use super::ntv2::{converted, file_of, put_angle, put_count, ANGLES, PARENT};

/// Shifts that 19 refuses.
const NO_SHIFTS: [[u32; 2]; 6] = [[0x7FC0_0000; 2]; 6];

/// The number of a file of such shifts, with a change.
fn with(change: impl Fn(&mut [u8])) -> Option<i64> {
    let mut file = file_of(NO_SHIFTS);
    change(&mut file);
    converted(&file, 48).err()
}

/// The number with other angles, each at its byte.
fn with_angles(angles: &[(usize, f64)]) -> Option<i64> {
    with(|file| {
        for &(at, seconds) in angles {
            put_angle(file, at, seconds);
        }
    })
}

#[test]
fn labels_the_type_and_the_parent() {
    assert_eq!(with(|_| ()), Some(19));
    let end = 352 + 6 * 16;
    for record in (0..352).step_by(16).chain([end]) {
        for at in record..record + 8 {
            assert_eq!(with(|file| file[at] ^= 0x20), Some(18), "byte {at}");
        }
    }
    for at in (56..64).chain(PARENT..PARENT + 8) {
        assert_eq!(with(|file| file[at] ^= 0x20), Some(18), "byte {at}");
    }
}

#[test]
fn counts() {
    for at in [8, 24, 40, 344] {
        for count in [0, 2, 5, 7, 10, 12, -1, i32::MIN] {
            assert_eq!(with(|file| put_count(file, at, count)), Some(18));
        }
    }
}

#[test]
fn values_that_are_not_read() {
    let of_records = (4..15).filter(|record| *record != 12);
    let of_records = of_records.flat_map(|record| 16 * record + 8..16 * record + 16);
    let of_counts = [12, 28, 44, 348].into_iter().flat_map(|at| at..at + 4);
    let of_nodes = (0..6).flat_map(|node| 360 + 16 * node..368 + 16 * node);
    let of_end = 352 + 6 * 16 + 8..352 + 7 * 16;
    let mut file = file_of([[0x3E10_0000; 2]; 6]);
    let before = converted(&file, 48);
    assert!(before.is_ok());
    for at in of_records.chain(of_counts).chain(of_nodes).chain(of_end) {
        file[at] = 0x11;
    }
    assert_eq!(converted(&file, 48), before);
}

#[test]
fn angles_not_finite_or_past_their_limits() {
    for at in ANGLES {
        for seconds in [f64::NAN, f64::INFINITY, f64::NEG_INFINITY, f64::MAX, 1e18] {
            assert_eq!(with_angles(&[(at, seconds)]), Some(18));
        }
    }
    let latitudes = |south: f64| with_angles(&[(248, south), (264, south + 36.0)]);
    let longitudes = |west: f64| with_angles(&[(296, west), (280, west - 90.0)]);
    assert_eq!([-324_000.0, 323_964.0].map(latitudes), [Some(19); 2]);
    assert_eq!([-324_000.1, 323_964.1].map(latitudes), [Some(18); 2]);
    assert_eq!([648_000.0, -647_910.0].map(longitudes), [Some(19); 2]);
    assert_eq!([648_000.1, -647_910.1].map(longitudes), [Some(18); 2]);
}

#[test]
fn bounds_and_spacings_against_each_other() {
    let nd = 3.6e-6;
    // Once rounded, whole or not.
    assert_eq!(with_angles(&[(312, 36.0 + 0.4 * nd)]), Some(19));
    assert_eq!(with_angles(&[(312, 36.0 + 0.6 * nd)]), Some(18));
    assert_eq!(with_angles(&[(280, -18_090.0 - nd)]), Some(18));
    // Bounds the wrong way round, and another number of nodes.
    assert_eq!(with_angles(&[(248, 187_236.0), (264, 187_200.0)]), Some(18));
    assert_eq!(with_angles(&[(280, -18_000.0), (296, -18_090.0)]), Some(18));
    assert_eq!(with_angles(&[(312, 18.0)]), Some(18));
    assert_eq!(with_angles(&[(248, 187_236.0)]), Some(18));
    for spacing in [0.0, -36.0, 0.4 * nd] {
        assert_eq!(with_angles(&[(312, spacing)]), Some(18));
    }
}

#[test]
fn spacings_at_their_limits() {
    let rows = |spacing: f64| with_angles(&[(264, 187_200.0 + spacing), (312, spacing)]);
    assert_eq!([rows(360.0), rows(3.6e-6)], [Some(19); 2]);
    assert_eq!([rows(360.000_01), rows(1e-6)], [Some(18); 2]);
}

#[test]
fn lengths_must_be_exact() {
    let file = file_of(NO_SHIFTS);
    assert_eq!(converted(&file, 48), Err(19));
    for length in [0, 24, 40, 47, 49, 56, 96] {
        assert_eq!(converted(&file, length), Err(18));
    }
    let longer = [&file[..], &[0]].concat();
    assert_eq!(converted(&longer, 48), Err(18));
    for length in 0..file.len() {
        assert_eq!(converted(&file[..length], 48), Err(18));
    }
}
