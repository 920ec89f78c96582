//! Made-up fixes over two grids: on the bounds, node lines and half positions of both, in and
//! beside the part that they have in common.

use super::grids::TwoGrids;
use crate::cases::axis::Axis;
use crate::cases::fixes::{any_angle, any_height, inner_fix};
use crate::cases::lists::point_of;
use crate::random::Random;
use crate::Way;
use reference::{Geometry, Image};

/// A fix of any kind.
pub fn any_fix(random: &mut Random, way: Way, grids: &TwoGrids, image: &Image) -> [i64; 3] {
    any_fix_by(random, way, grids, image, angle)
}

/// A fix with angles of some kind along the axes of both grids.
pub fn any_fix_by(
    random: &mut Random,
    way: Way,
    grids: &TwoGrids,
    image: &Image,
    angle: fn(&mut Random, [Axis; 2], i32) -> i64,
) -> [i64; 3] {
    let corrections = &grids.corrections;
    let of_some_node = corrections.nodes[corrections.any_node(random)];
    let geometries = [&corrections.geometry, &grids.heights.geometry];
    let fix = fix_along(random, geometries, of_some_node, angle);
    often_gone_back(random, way, image, fix)
}

/// A fix whose angles lie along the axes of so many grids, where some node has these corrections.
pub fn fix_along<const GRIDS: usize>(
    random: &mut Random,
    geometries: [&Geometry; GRIDS],
    [latitude, longitude]: [i32; 2],
    angle: fn(&mut Random, [Axis; GRIDS], i32) -> i64,
) -> [i64; 3] {
    [
        angle(random, geometries.map(Axis::latitude), latitude),
        angle(random, geometries.map(Axis::longitude), longitude),
        any_height(random),
    ]
}

/// The fix. Going out, it is often the one that its Bessel point goes back to: so the way out ends at
/// or beside this point.
pub fn often_gone_back(random: &mut Random, way: Way, image: &Image, fix: [i64; 3]) -> [i64; 3] {
    if way == Way::Out && random.chance(60) {
        gone_back(image, fix)
    } else {
        fix
    }
}

/// A fix somewhere in the correction grid, often where the height grid is too.
pub fn inner_fix_of_both(random: &mut Random, grids: &TwoGrids) -> [i64; 3] {
    let geometries = [&grids.corrections.geometry, &grids.heights.geometry];
    let mut fix = inner_fix(random, geometries[0]);
    if random.chance(60) {
        let latitude = in_common(random, geometries.map(Axis::latitude));
        let longitude = in_common(random, geometries.map(Axis::longitude));
        fix[0] = latitude.unwrap_or(fix[0]);
        fix[1] = longitude.unwrap_or(fix[1]);
    }
    fix
}

/// An angle along the axes of both grids, where some node has the given correction.
fn angle(random: &mut Random, axes: [Axis; 2], correction: i32) -> i64 {
    let [corrections, heights] = axes;
    match random.below(100) {
        0..40 => any_angle(random, &corrections, correction.into()),
        40..60 => any_angle(random, &heights, correction.into()),
        60..72 => beside_a_bound(random, &heights, 1),
        _ => in_common(random, axes)
            .unwrap_or_else(|| any_angle(random, &corrections, correction.into())),
    }
}

/// An angle on a bound, or at most so far beside it.
pub fn beside_a_bound(random: &mut Random, axis: &Axis, most: i64) -> i64 {
    random.pick(&[axis.low, axis.high()]) + random.between(-most, most)
}

/// An angle between the bounds of both axes, if they have one in common.
pub fn in_common(random: &mut Random, [one, other]: [Axis; 2]) -> Option<i64> {
    let (low, high) = (one.low.max(other.low), one.high().min(other.high()));
    (low <= high).then(|| random.between(low, high))
}

/// The fix moved by the corrections at its point, if they can be looked up.
fn gone_back(image: &Image, [latitude, longitude, height]: [i64; 3]) -> [i64; 3] {
    let corrections = image.corrections(point_of([latitude, longitude, height]));
    let [by_latitude, by_longitude] = corrections.unwrap_or([0, 0]);
    [
        latitude + by_latitude as i64,
        longitude + by_longitude as i64,
        height,
    ]
}
