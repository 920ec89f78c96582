//! Made-up fixes: in the grid, on its bounds, node lines and half positions, just outside, where
//! the way out leaves the bounds, and at and past question 7's limits.

use super::axis::Axis;
use super::grid::Grid;
use crate::random::Random;
use reference::Geometry;

/// A fix of any kind: latitude, longitude, height.
pub fn any_fix(random: &mut Random, grid: &Grid<3>) -> [i64; 3] {
    let [latitude_correction, longitude_correction, _] = grid.nodes[grid.any_node(random)];
    let latitude = Axis::latitude(&grid.geometry);
    let longitude = Axis::longitude(&grid.geometry);
    [
        any_angle(random, &latitude, latitude_correction.into()),
        any_angle(random, &longitude, longitude_correction.into()),
        any_height(random),
    ]
}

/// A fix somewhere in the bounds, its height in limits.
pub fn inner_fix(random: &mut Random, geometry: &Geometry) -> [i64; 3] {
    let (latitude, longitude) = (Axis::latitude(geometry), Axis::longitude(geometry));
    [
        random.between(latitude.low, latitude.high()),
        random.between(longitude.low, longitude.high()),
        random.around_zero(100_000_000),
    ]
}

/// An angle along one axis, where some node has the given correction.
pub fn any_angle(random: &mut Random, axis: &Axis, correction: i64) -> i64 {
    let (low, high) = (axis.low, axis.high());
    match random.below(100) {
        0..40 => random.between(low, high),
        40..52 => axis.any_line(random),
        52..66 => axis.any_line(random) + axis.spacing / 2 + random.between(0, 1),
        66..72 => low + random.between(0, 1),
        72..80 => high - random.between(0, 1),
        80..84 => random.pick(&[low - 1, high + 1, low - axis.spacing, high + axis.spacing]),
        84..93 => leaving(random, axis, correction),
        93..97 => axis.any_line(random) + random.sign(),
        97..99 => random.sign() * (axis.limit + random.between(-1, 1)),
        _ => any_number(random),
    }
}

/// An angle that, less the correction, comes to lie on a bound or up to 2 nd beside it.
fn leaving(random: &mut Random, axis: &Axis, correction: i64) -> i64 {
    let bound = if correction >= 0 {
        axis.low
    } else {
        axis.high()
    };
    bound + correction + random.between(-2, 2)
}

/// A height in limits most often, or at or past question 7's limits for either way.
pub fn any_height(random: &mut Random) -> i64 {
    match random.below(100) {
        0..85 => random.around_zero(100_000_000),
        85..90 => random.sign() * (100_000_000 + random.between(-1, 1)),
        90..95 => random.sign() * (110_000_000 + random.between(-1, 1)),
        95..98 => random.between(-2, 2),
        _ => any_number(random),
    }
}

/// Any 64-bit number, its extremes often.
pub fn any_number(random: &mut Random) -> i64 {
    let drawn = random.draw() as i64;
    random.pick(&[i64::MIN, i64::MAX, i64::MIN + 1, -1, 0, 1, drawn, drawn])
}
