//! Bounds and spacings: signs and order, rounding, whole numbers of spacings, each limit of
//! questions 3 to 5, and numbers that are not finite.

use crate::files::{grid_after, number_after, Changes, ANGLES, GEOMETRY};
use reference::{FileGrid, Geometry, Number};

/// An axis of a file: the labels of its lower bound, its higher bound and its spacing, and −1 where
/// the file has it with the other sign.
type AxisLabels = ([&'static str; 3], f64);

const LATITUDE: AxisLabels = (["S_LAT", "N_LAT", "LAT_INC"], 1.0);
const LONGITUDE: AxisLabels = (["W_LONG", "E_LONG", "LONG_INC"], -1.0);

/// Arcseconds, exact only for multiples of 9 nd × 2^n.
fn arcseconds(nd: i64) -> f64 {
    nd as f64 * 9.0 / 2_500_000.0
}

/// Sets the bounds of an axis, in our sign and order, and its spacing, all in arcseconds.
fn set_axis(grid: &mut FileGrid, (labels, sign): AxisLabels, [low, high, spacing]: [f64; 3]) {
    for (label, angle) in labels.into_iter().zip([sign * low, sign * high, spacing]) {
        grid.set_angle(label, angle);
    }
}

/// The number of the small file with another axis of so many lines, by its low bound and spacing in
/// nd.
fn number_of(axis: AxisLabels, low: i64, spacing: i64, lines: i64) -> Option<Number> {
    let high = low + (lines - 1) * spacing;
    let other_lines = if axis == LATITUDE { 3 } else { 2 };
    number_after(|it| {
        set_axis(it, axis, [low, high, spacing].map(arcseconds));
        it.set_nodes((other_lines * lines.max(0)) as usize);
    })
}

/// The geometry of a grid after a change.
fn geometry_after(change: impl Fn(&mut FileGrid)) -> Result<Geometry, Number> {
    grid_after(change).map(|it| it.geometry)
}

#[test]
fn longitudes_are_turned_and_latitudes_are_not() {
    assert_eq!(geometry_after(|_| {}), Ok(GEOMETRY));
    let southern = |it: &mut FileGrid| set_axis(it, LATITUDE, [-187_236.0, -187_200.0, 36.0]);
    let south = -52_010_000_000;
    assert_eq!(geometry_after(southern), Ok(Geometry { south, ..GEOMETRY }));
    let western = |it: &mut FileGrid| set_axis(it, LONGITUDE, [-18_090.0, -18_000.0, 45.0]);
    let west = -5_025_000_000;
    assert_eq!(geometry_after(western), Ok(Geometry { west, ..GEOMETRY }));
}

/// Bounds of an odd number of times 9/64 arcsecond, on both sides of zero: halves go upward in our
/// sign, and so the differences are whole although the halves are at both ends.
#[test]
fn the_sign_is_turned_before_a_half_goes_upward() {
    let half = 0.140_625;
    let bounds = |low: f64| [low, low + 90.0, 45.0];
    let south_and_west = |low: f64| {
        let rows = geometry_after(|it| {
            set_axis(it, LATITUDE, bounds(low));
            it.set_nodes(9);
        });
        let columns = geometry_after(|it| set_axis(it, LONGITUDE, bounds(low)));
        [rows.map(|it| it.south), columns.map(|it| it.west)]
    };
    assert_eq!(south_and_west(half), [Ok(39_063); 2]);
    assert_eq!(south_and_west(-half), [Ok(-39_062); 2]);
    assert_eq!(south_and_west(18_000.0 - half), [Ok(4_999_960_938); 2]);
    assert_eq!(south_and_west(-18_000.0 - half), [Ok(-5_000_039_062); 2]);
    let from_zero = |zero: f64| geometry_after(|it| set_axis(it, LONGITUDE, [zero, 90.0, 45.0]));
    for zero in [0.0, -0.0, f64::from_bits(1), -f64::from_bits(1)] {
        assert_eq!(from_zero(zero).map(|it| it.west), Ok(0));
    }
}

#[test]
fn a_spacing_on_a_half_goes_upward() {
    let spacing = geometry_after(|it| {
        set_axis(it, LATITUDE, [0.0, arcseconds(39_063), 0.140_625]);
    });
    assert_eq!(spacing.map(|it| it.latitude_spacing), Ok(39_063));
    let exact = number_after(|it| set_axis(it, LATITUDE, [0.0, 2.0 * 0.140_625, 0.140_625]));
    assert_eq!(exact, Some(18));
}

#[test]
fn a_difference_that_is_not_a_whole_number_of_spacings_is_18() {
    for (axis, low, lines) in [(LATITUDE, 52_000_000_000, 2), (LONGITUDE, 5_000_000_000, 3)] {
        let spacing = 10_000_000;
        let number = |low_more: i64, high_more: i64, spacing_more: i64| {
            let high = low + (lines - 1) * spacing + high_more;
            let numbers = [low + low_more, high, spacing + spacing_more];
            number_after(|it| set_axis(it, axis, numbers.map(arcseconds)))
        };
        assert_eq!(number(0, 0, 0), None);
        assert_eq!(number(1, 1, 0), None);
        for change in [-1, 1, 5_000_000] {
            assert_eq!(number(change, 0, 0), Some(18));
            assert_eq!(number(0, change, 0), Some(18));
            assert_eq!(number(0, 0, change), Some(18));
        }
    }
}

#[test]
fn bounds_for_each_other_are_18() {
    let swapped = |one: &str, other: &str| {
        number_after(|it| {
            let before = it.header;
            *it.header.value_mut(one) = before.value(other);
            *it.header.value_mut(other) = before.value(one);
        })
    };
    assert_eq!(swapped("S_LAT", "N_LAT"), Some(18));
    assert_eq!(swapped("W_LONG", "E_LONG"), Some(18));
    assert_eq!(swapped("LAT_INC", "LONG_INC"), Some(18));
    assert_eq!(swapped("S_LAT", "E_LONG"), Some(18));
}

#[test]
fn question_3_rows_and_columns() {
    for axis in [LATITUDE, LONGITUDE] {
        for lines in [-4_096, -1, 0, 1, 4_097, 10_000] {
            assert_eq!(number_of(axis, 9, 9, lines), Some(18), "{lines}");
        }
        for lines in [2, 3, 4_095, 4_096] {
            assert_eq!(number_of(axis, 9, 9, lines), None, "{lines}");
        }
    }
}

#[test]
fn question_4_the_spacings() {
    for axis in [LATITUDE, LONGITUDE] {
        for spacing in [1, 2, 99_999_999, 100_000_000] {
            assert_eq!(number_of(axis, 0, spacing, 3), None, "{spacing}");
        }
        for spacing in [100_000_001, 1_000_000_000, 4_294_967_297, -1, -100_000_000] {
            assert_eq!(number_of(axis, 0, spacing, 3), Some(18), "{spacing}");
        }
        for spacing in [0.0, -0.0, f64::from_bits(1), arcseconds(1) * 0.499, -36.0] {
            let number = number_after(|it| set_axis(it, axis, [0.0, 0.0, spacing]));
            assert_eq!(number, Some(18), "{spacing}");
        }
    }
}

#[test]
fn question_5_the_bounds() {
    for (axis, limit) in [(LATITUDE, 90_000_000_000), (LONGITUDE, 180_000_000_000)] {
        let highest = limit - 20_000_000;
        for low in [-limit, 1 - limit, highest - 1, highest] {
            assert_eq!(number_of(axis, low, 10_000_000, 3), None, "{low}");
        }
        for low in [-limit - 1, highest + 1, limit, 1 << 60, -1 << 60] {
            assert_eq!(number_of(axis, low, 10_000_000, 3), Some(18), "{low}");
        }
    }
}

/// 90 degrees are 324,000 arcseconds; 0.0000018 arcsecond is half an nd.
#[test]
fn a_bound_is_at_its_limit_once_rounded() {
    let north = |more: f64| {
        let bounds = [323_964.0, 324_000.0 + more, 36.0];
        number_after(|it| set_axis(it, LATITUDE, bounds))
    };
    assert_eq!(north(0.000_001_79), None);
    assert_eq!(north(0.000_001_81), Some(18));
}

#[test]
fn a_number_that_is_not_finite_or_far_is_18() {
    let largest = f64::MAX;
    for (label, _) in ANGLES {
        for angle in [
            f64::INFINITY,
            f64::NAN,
            f64::from_bits(0x7FF0 << 48 | 1),
            largest,
            1e30,
        ] {
            assert_eq!(number_after(|it| it.set_angle(label, angle)), Some(18));
            assert_eq!(number_after(|it| it.set_angle(label, -angle)), Some(18));
        }
    }
}
