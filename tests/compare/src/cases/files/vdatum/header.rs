//! Made-up headers: over a fit geometry, and with a number broken.

use super::super::angles;
use crate::cases::geometry::{LATITUDE_LIMIT, LONGITUDE_LIMIT, SPACING_LIMIT};
use crate::random::Random;
use reference::{FileHeader, Geometry, DOUBLE, FROM_DEGREES};

/// The header that says a geometry in the floats nearest to its numbers.
pub fn of_whole_nd(geometry: &Geometry) -> FileHeader {
    header_with(geometry, |nd| angles::nearest_to(FROM_DEGREES, nd as f64))
}

/// A header over a geometry: its floats become the geometry's numbers or ones close to them.
pub fn over(random: &mut Random, geometry: &Geometry) -> FileHeader {
    let mut header = header_with(geometry, |nd| angles::angle(random, FROM_DEGREES, nd));
    if random.chance(25) {
        header.south = angles::half(random, FROM_DEGREES, geometry.south);
    }
    if random.chance(25) {
        header.west = angles::half(random, FROM_DEGREES, geometry.west);
    }
    for (bits, spacing) in [
        (&mut header.latitude_spacing, geometry.latitude_spacing),
        (&mut header.longitude_spacing, geometry.longitude_spacing),
    ] {
        if random.chance(25) && spacing > 1_000_000 {
            *bits = angles::half(random, FROM_DEGREES, spacing.into());
        }
    }
    if random.chance(3) {
        header.south = angles::tiny(random);
    }
    if random.chance(3) {
        header.west = angles::tiny(random);
    }
    header
}

fn header_with(geometry: &Geometry, mut angle: impl FnMut(i64) -> u64) -> FileHeader {
    FileHeader {
        south: angle(geometry.south),
        west: angle(geometry.west),
        latitude_spacing: angle(geometry.latitude_spacing.into()),
        longitude_spacing: angle(geometry.longitude_spacing.into()),
        rows: geometry.rows as i32,
        columns: geometry.columns as i32,
    }
}

/// Sets one number of a header to a value at or past its limits, to one that is not finite, or to
/// any value.
pub fn break_number(random: &mut Random, header: &mut FileHeader) {
    let (rows, columns) = (header.rows, header.columns);
    match random.below(13) {
        0 | 1 => {
            let extent = extent(header.latitude_spacing, rows);
            header.south = any_bound(random, extent, LATITUDE_LIMIT);
        }
        2 | 3 => {
            let extent = extent(header.longitude_spacing, columns);
            header.west = any_bound(random, extent, LONGITUDE_LIMIT);
        }
        4 | 5 => header.latitude_spacing = any_spacing(random, header.latitude_spacing),
        6 | 7 => header.longitude_spacing = any_spacing(random, header.longitude_spacing),
        8 | 9 => header.rows = any_count(random, rows),
        10 | 11 => header.columns = any_count(random, columns),
        _ => (header.rows, header.columns) = any_two_counts(random, rows, columns),
    }
}

/// How far apart the bounds of an axis are, in nd; 0 for a spacing that is not finite or far.
fn extent(spacing: u64, lines: i32) -> i64 {
    let spacing = reference::nearest(DOUBLE, spacing, FROM_DEGREES).unwrap_or(0);
    let extent = (i128::from(lines) - 1) * spacing;
    i64::try_from(extent).unwrap_or(0)
}

/// A south or west bound that is not finite, or lies, or puts the other bound, at the limit or
/// 1 nd or a few bits beside it.
fn any_bound(random: &mut Random, extent: i64, limit: i64) -> u64 {
    let other_at_limit = limit.saturating_sub(extent);
    let at_limit = random.pick(&[-limit, other_at_limit, other_at_limit, limit]);
    let beside = at_limit.saturating_add(random.between(-1, 1));
    match random.below(10) {
        0..4 => angles::not_finite(random),
        4..7 => angles::angle(random, FROM_DEGREES, beside),
        7 => angles::edge(random, FROM_DEGREES, at_limit),
        8 => angles::tiny(random),
        _ => angles::any(random),
    }
}

/// A spacing that is not finite, is at its limits or a few bits beside them, or has the other
/// sign.
fn any_spacing(random: &mut Random, spacing: u64) -> u64 {
    let limit = random.pick(&[0, 1, SPACING_LIMIT, SPACING_LIMIT + 1, -1, -SPACING_LIMIT]);
    match random.below(10) {
        0..4 => angles::not_finite(random),
        4..6 => angles::angle(random, FROM_DEGREES, limit),
        6 => angles::edge(random, FROM_DEGREES, limit),
        7 => spacing ^ (1 << 63),
        8 => angles::tiny(random),
        _ => angles::any(random),
    }
}

fn any_count(random: &mut Random, count: i32) -> i32 {
    let any = random.draw() as i32;
    let near = count.wrapping_add(random.pick(&[-1, 1]));
    random.pick(&[
        near,
        0,
        1,
        1,
        4_096,
        4_097,
        4_097,
        65_536,
        1 << 30,
        i32::MAX,
        i32::MIN,
        -1,
        -1,
        count.wrapping_neg(),
        any,
    ])
}

/// Rows and columns together: the one for the other, both of the other sign, or so many that their
/// nodes, in bytes, are 0 if cut to 32 or to 64 bits.
fn any_two_counts(random: &mut Random, rows: i32, columns: i32) -> (i32, i32) {
    let swapped = (columns, rows);
    let turned = (rows.wrapping_neg(), columns.wrapping_neg());
    random.pick(&[
        swapped,
        swapped,
        turned,
        (65_536, 65_536),
        (32_768, 32_768),
        (1 << 30, 4),
        (i32::MIN, i32::MIN),
        (i32::MIN, 2),
        (i32::MAX, i32::MAX),
        (-1, -1),
        (0, 0),
    ])
}
