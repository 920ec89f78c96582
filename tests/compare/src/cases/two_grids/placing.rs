//! Where a height grid lies to the correction grid.

use crate::cases::axis::{geometry_of, Axis};
use crate::cases::geometry::SPACING_LIMIT;
use crate::random::Random;
use reference::Geometry;

/// How the heights' lines lie to the corrections' along one axis.
#[derive(Clone, Copy)]
enum Lie {
    /// The same lines.
    Same,
    /// Other lines between the same bounds.
    SameBounds,
    /// To both bounds or past them.
    Around,
    /// Between the bounds, at times 1 nd from one.
    Inside,
    /// Over one bound, or just to it from outside.
    Across,
    /// Past one bound, at times by 1 nd: no point in common.
    Beside,
}

const LIES: [Lie; 8] = [
    Lie::Same,
    Lie::SameBounds,
    Lie::Around,
    Lie::Around,
    Lie::Inside,
    Lie::Inside,
    Lie::Across,
    Lie::Beside,
];

/// The largest number of cells along an axis that is made up here.
const MOST_CELLS: i64 = 64;

/// A geometry for heights: it lies to that of the corrections alike along both axes, or not.
pub fn height_geometry(random: &mut Random, corrections: &Geometry) -> Geometry {
    let in_latitude = random.pick(&LIES);
    let in_longitude = if random.chance(60) {
        in_latitude
    } else {
        random.pick(&LIES)
    };
    let latitude = height_axis(random, &Axis::latitude(corrections), in_latitude);
    let longitude = height_axis(random, &Axis::longitude(corrections), in_longitude);
    geometry_of(&latitude, &longitude)
}

/// An axis that lies so to the corrections', or the same one where there is no room.
fn height_axis(random: &mut Random, corrections: &Axis, lie: Lie) -> Axis {
    let extent = corrections.extent();
    let cells = random.between(1, 9);
    let made = match lie {
        Lie::Same => *corrections,
        Lie::SameBounds => with_same_bounds(random, corrections),
        Lie::Around => around(random, corrections, cells),
        Lie::Inside => inside(random, corrections, cells.min(extent)),
        Lie::Across => across(random, corrections, cells),
        Lie::Beside => beside(random, corrections, cells),
    };
    let has_room = -made.limit <= made.low && made.high() <= made.limit;
    let is_fit = (1..=SPACING_LIMIT).contains(&made.spacing) && made.lines <= MOST_CELLS + 1;
    if has_room && is_fit {
        made
    } else {
        *corrections
    }
}

/// An axis of so many cells.
fn axis(corrections: &Axis, low: i64, spacing: i64, cells: i64) -> Axis {
    Axis {
        low,
        spacing,
        lines: cells + 1,
        limit: corrections.limit,
    }
}

fn with_same_bounds(random: &mut Random, corrections: &Axis) -> Axis {
    let extent = corrections.extent();
    let fit = |cells: &i64| extent % cells == 0 && extent / cells <= SPACING_LIMIT;
    let divisors: Vec<i64> = (1..=24).filter(fit).collect();
    if divisors.is_empty() {
        return *corrections;
    }
    let cells = random.pick(&divisors);
    axis(corrections, corrections.low, extent / cells, cells)
}

fn around(random: &mut Random, corrections: &Axis, cells: i64) -> Axis {
    let extent = corrections.extent();
    let cells = cells.max(ceiling(extent, SPACING_LIMIT));
    let least = ceiling(extent, cells);
    let wider = random.between(0, least);
    let spacing = (least + random.pick(&[0, 1, wider, wider])).min(SPACING_LIMIT);
    let spare = cells * spacing - extent;
    let limit = corrections.limit;
    // As far past the southern or western bound, but neither bound past the limits.
    let low = (corrections.low - random.between(0, spare))
        .max(-limit)
        .min(limit - cells * spacing);
    axis(corrections, low, spacing, cells)
}

fn inside(random: &mut Random, corrections: &Axis, cells: i64) -> Axis {
    let extent = corrections.extent();
    let largest = (extent / cells).min(SPACING_LIMIT);
    let any = random.between(1, largest);
    let spacing = random.pick(&[largest, any, any]);
    let spare = extent - cells * spacing;
    let somewhere = random.between(0, spare);
    let from_low = random.pick(&[0, 1.min(spare), (spare - 1).max(0), spare, somewhere]);
    axis(corrections, corrections.low + from_low, spacing, cells)
}

fn across(random: &mut Random, corrections: &Axis, cells: i64) -> Axis {
    let spacing = any_spacing(random, corrections, cells);
    let extent = cells * spacing;
    let overlap = random.between(0, extent.min(corrections.extent()) - 1);
    let low = random.pick(&[
        corrections.high() - overlap,
        corrections.low + overlap - extent,
    ]);
    axis(corrections, low, spacing, cells)
}

fn beside(random: &mut Random, corrections: &Axis, cells: i64) -> Axis {
    let spacing = any_spacing(random, corrections, cells);
    let far = random.between(1, 2 * corrections.extent());
    let gap = random.pick(&[1, 1, 2, far]);
    let low = random.pick(&[
        corrections.high() + gap,
        corrections.low - gap - cells * spacing,
    ]);
    axis(corrections, low, spacing, cells)
}

/// A spacing with which so many cells reach up to twice as far as the corrections.
fn any_spacing(random: &mut Random, corrections: &Axis, cells: i64) -> i64 {
    let largest = ceiling(2 * corrections.extent(), cells).min(SPACING_LIMIT);
    random.between(1, largest)
}

/// The quotient of two positive numbers, rounded up.
fn ceiling(numerator: i64, denominator: i64) -> i64 {
    (numerator + denominator - 1) / denominator
}
