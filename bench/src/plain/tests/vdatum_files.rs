//! Files and buffers that are refused with 16, and that 16 comes before 17.

use super::vdatum::{converted, file_of, put_angle};

/// A number that is not finite, the float's sign either way.
const NOT_FINITE: [f64; 3] = [f64::NAN, f64::INFINITY, f64::NEG_INFINITY];

/// The number of a file with another angle, over a node that is not finite.
fn with_angle(place: usize, degrees: f64) -> Option<i64> {
    let mut file = file_of([f32::NAN.to_bits(); 6]);
    put_angle(&mut file, place, degrees);
    converted(&file, 24).err()
}

/// The number of a file with other rows and columns, spaced by 0.001 degrees, and as many heights of
/// zero.
fn with_counts(rows: i32, columns: i32) -> Option<i64> {
    let nodes = rows.max(0) as usize * columns.max(0) as usize;
    let mut file = file_of([0; 6])[..40].to_vec();
    put_angle(&mut file, 2, 0.001);
    put_angle(&mut file, 3, 0.001);
    file[32..36].copy_from_slice(&rows.to_be_bytes());
    file[36..40].copy_from_slice(&columns.to_be_bytes());
    file.resize(40 + 4 * nodes, 0);
    converted(&file, 4 * nodes).err()
}

#[test]
fn angles_not_finite_or_past_their_limits() {
    for place in 0..4 {
        for degrees in NOT_FINITE.into_iter().chain([f64::MAX, -1e300, 1e18]) {
            assert_eq!(with_angle(place, degrees), Some(16));
        }
    }
    let (north, east) = (90.0 - 0.01, 180.0 - 2.0 * 0.0125);
    let past = 0.75e-9;
    assert_eq!([with_angle(0, -90.0), with_angle(0, north)], [Some(17); 2]);
    assert_eq!([with_angle(1, -180.0), with_angle(1, east)], [Some(17); 2]);
    assert_eq!(with_angle(0, -90.0 - past), Some(16));
    assert_eq!(with_angle(0, north + past), Some(16));
    assert_eq!(with_angle(1, -180.0 - past), Some(16));
    assert_eq!(with_angle(1, east + past), Some(16));
}

#[test]
fn spacings_that_round_to_their_limits() {
    for place in [2, 3] {
        assert_eq!(with_angle(place, 0.5e-9), Some(17));
        assert_eq!(with_angle(place, 0.49e-9), Some(16));
        assert_eq!(with_angle(place, -0.01), Some(16));
        assert_eq!(with_angle(place, 0.1), Some(17));
        assert_eq!(with_angle(place, 0.1 + 0.75e-9), Some(16));
    }
}

#[test]
fn rows_and_columns() {
    assert_eq!([with_counts(2, 4_096), with_counts(4_096, 2)], [None; 2]);
    for count in [1, 0, -1, 4_097, i32::MIN] {
        assert_eq!(with_counts(count, 2), Some(16));
        assert_eq!(with_counts(2, count), Some(16));
    }
    let mut file = file_of([0; 6]);
    for counts in [[-2, -3], [i32::MAX, i32::MAX]] {
        file[32..40].copy_from_slice(&counts.map(i32::to_be_bytes).concat());
        assert_eq!(converted(&file, 24), Err(16));
    }
}

#[test]
fn lengths_must_be_exact() {
    let file = file_of([f32::NAN.to_bits(); 6]);
    assert_eq!(converted(&file, 24), Err(17));
    for length in [0, 20, 23, 25, 28] {
        assert_eq!(converted(&file, length), Err(16));
    }
    let longer = [&file[..], &[0]].concat();
    assert_eq!(converted(&longer, 24), Err(16));
    for length in 0..file.len() {
        assert_eq!(converted(&file[..length], 24), Err(16));
    }
}
