//! Where a dense grid lies in the coarse one: over all of it, over one cell, to a bound or between
//! all bounds, with the coarse spacings themselves or parts of them down to 1 nd.

use crate::cases::axis::{geometry_of, Axis};
use crate::cases::geometry::{self, LATITUDE_LIMIT, LINES_LIMIT, LONGITUDE_LIMIT, SPACING_LIMIT};
use crate::random::Random;
use reference::Geometry;

/// A dense geometry whose spacings are any parts of the coarse ones.
pub fn dense_geometry(random: &mut Random, coarse: &Geometry) -> Geometry {
    let most = most_cells(random);
    let axes = [Axis::latitude(coarse), Axis::longitude(coarse)];
    let [latitude, longitude] = [0, 1].map(|axis| {
        let [covered, ratio] = covered_and_ratio(random, &axes[axis], most[axis]);
        dense_axis(random, &axes[axis], covered, ratio)
    });
    geometry_of(&latitude, &longitude)
}

/// One whose spacings are these parts of the coarse ones.
pub fn dense_geometry_by(random: &mut Random, coarse: &Geometry, ratios: [i64; 2]) -> Geometry {
    let axes = [Axis::latitude(coarse), Axis::longitude(coarse)];
    let [latitude, longitude] = [0, 1].map(|axis| {
        let covered = random.between(1, axes[axis].lines - 1);
        dense_axis(random, &axes[axis], covered, ratios[axis])
    });
    geometry_of(&latitude, &longitude)
}

/// A coarse geometry with few lines, whose spacings have many parts.
pub fn coarse_geometry(random: &mut Random) -> Geometry {
    let lines = [random.between(2, 6), random.between(2, 6)];
    let limits = [LATITUDE_LIMIT, LONGITUDE_LIMIT];
    let spacings = [0, 1].map(|axis| {
        let largest = SPACING_LIMIT.min(2 * limits[axis] / (lines[axis] - 1));
        many_part_spacing(random).min(largest)
    });
    geometry::placed(random, spacings, lines)
}

/// A number with several divisors: often some thousands or millions, at times few.
fn many_part_spacing(random: &mut Random) -> i64 {
    let parts = random.pick(&[1, 2, 3, 4, 5, 6, 7, 9, 12, 15, 16, 60, 100, 210]);
    let any = random.between(1, 1_000_000);
    let thousands = 1_000 * random.between(1, 1_000);
    let whole = random.pick(&[1, 7, 100, 10_000, 100_000, 1_000_000, 6_666_666]);
    parts * random.pick(&[whole, whole, any, thousands])
}

/// So many dense cells at most along each axis: few, or along one axis many or all that question 3
/// allows.
fn most_cells(random: &mut Random) -> [i64; 2] {
    let few = [random.between(1, 12), random.between(1, 12)];
    let many = random.pick(&[100, 210, 300]);
    match random.below(100) {
        0 => [LINES_LIMIT - 1, few[1].min(2)],
        1 => [few[0].min(2), LINES_LIMIT - 1],
        2..8 => [many, few[1].min(3)],
        8..14 => [few[0].min(3), many],
        14..30 => [24, 24],
        _ => few,
    }
}

/// How many coarse cells are covered, and into how many dense ones each is divided.
fn covered_and_ratio(random: &mut Random, coarse: &Axis, most: i64) -> [i64; 2] {
    let cells = coarse.lines - 1;
    let any = random.between(1, cells);
    let covered = random.pick(&[1, 1, any, cells]).min(most);
    let divides = |ratio: &i64| coarse.spacing % ratio == 0;
    let ratios: Vec<i64> = (1..=most / covered).filter(divides).collect();
    let largest = ratios[ratios.len() - 1];
    let some = random.pick(&ratios);
    [covered, random.pick(&[1, largest, some, some])]
}

/// The dense axis over so many coarse cells, from any of them on or to either bound.
fn dense_axis(random: &mut Random, coarse: &Axis, covered: i64, ratio: i64) -> Axis {
    let spare = coarse.lines - 1 - covered;
    let any = random.between(0, spare);
    let first = random.pick(&[0, spare, any, any, spare / 2]);
    Axis {
        low: coarse.low + first * coarse.spacing,
        spacing: coarse.spacing / ratio,
        lines: covered * ratio + 1,
        limit: coarse.limit,
    }
}
