//! Made-up geometry that answers yes to questions 3 to 5: small and large grids, thin ones,
//! spacings at their limits, bounds at the poles and at ±180 degrees.

use crate::random::Random;
use reference::Geometry;

pub const LATITUDE_LIMIT: i64 = 90_000_000_000;
pub const LONGITUDE_LIMIT: i64 = 180_000_000_000;
pub const SPACING_LIMIT: i64 = 100_000_000;
pub const LINES_LIMIT: i64 = 4_096;

/// Any fit geometry.
pub fn any_geometry(random: &mut Random) -> Geometry {
    let (rows, columns) = size(random);
    geometry_with(random, rows, columns)
}

/// Any fit geometry with so many rows and columns.
pub fn geometry_with(random: &mut Random, rows: i64, columns: i64) -> Geometry {
    let latitude_spacing = any_spacing(random, rows, LATITUDE_LIMIT);
    let longitude_spacing = any_spacing(random, columns, LONGITUDE_LIMIT);
    placed(
        random,
        [latitude_spacing, longitude_spacing],
        [rows, columns],
    )
}

/// A geometry with the given spacings and number of rows and columns, at any fit place.
pub fn placed(random: &mut Random, spacings: [i64; 2], lines: [i64; 2]) -> Geometry {
    let south = lower_bound(random, (lines[0] - 1) * spacings[0], LATITUDE_LIMIT);
    let west = lower_bound(random, (lines[1] - 1) * spacings[1], LONGITUDE_LIMIT);
    Geometry {
        south,
        west,
        latitude_spacing: spacings[0] as u32,
        longitude_spacing: spacings[1] as u32,
        rows: lines[0] as u32,
        columns: lines[1] as u32,
    }
}

/// Rows and columns: most often few, at times thin and long or large.
fn size(random: &mut Random) -> (i64, i64) {
    let mut both = |low, high| (random.between(low, high), random.between(low, high));
    let (few, some, many) = (both(2, 5), both(2, 16), both(40, 130));
    match random.below(1_000) {
        0..600 => few,
        600..980 => some,
        980..985 => (2, LINES_LIMIT),
        985..990 => (LINES_LIMIT, 2),
        990..993 => (1_801, 2),
        993..996 => (2, 3_601),
        _ => many,
    }
}

/// A spacing with which so many lines fit between the limits.
fn any_spacing(random: &mut Random, lines: i64, limit: i64) -> i64 {
    let largest = SPACING_LIMIT.min(2 * limit / (lines - 1));
    let spacing = match random.below(100) {
        0..15 => 1,
        15..35 => random.between(2, 10),
        35..45 => 1_000,
        45..60 => largest,
        60..65 => largest - 1,
        65..75 => random.between(1, largest),
        _ => 1 << random.below(27),
    };
    spacing.min(largest)
}

/// A south or west bound such that the other bound is in the limits too.
fn lower_bound(random: &mut Random, extent: i64, limit: i64) -> i64 {
    match random.below(100) {
        0..12 => -limit,
        12..24 => limit - extent,
        24..36 => -extent / 2,
        36..42 => 0.min(limit - extent),
        _ => random.between(-limit, limit - extent),
    }
}
