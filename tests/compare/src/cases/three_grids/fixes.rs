//! Made-up fixes over three grids: on the bounds, node lines and half positions of each, on the
//! dense bounds and some nd beside them, and, going out, ending there.

use super::grids::ThreeGrids;
use crate::cases::axis::Axis;
use crate::cases::fixes::{any_angle, inner_fix};
use crate::cases::two_grids::fixes::{
    beside_a_bound, fix_along, in_common, inner_fix_of_both, often_gone_back,
};
use crate::random::Random;
use crate::Way;
use reference::Image;

/// A fix of any kind.
pub fn any_fix(random: &mut Random, way: Way, grids: &ThreeGrids, image: &Image) -> [i64; 3] {
    let from = random.pick(&[&grids.two.corrections, &grids.dense]);
    let of_some_node = from.nodes[from.any_node(random)];
    let geometries = [
        &grids.two.corrections.geometry,
        &grids.two.heights.geometry,
        &grids.dense.geometry,
    ];
    let fix = fix_along(random, geometries, of_some_node, angle);
    often_gone_back(random, way, image, fix)
}

/// A fix somewhere in the correction grid, often in the dense grid or on the height grid.
pub fn inner_fix_of_three(random: &mut Random, grids: &ThreeGrids) -> [i64; 3] {
    if random.chance(60) {
        inner_fix(random, &grids.dense.geometry)
    } else {
        inner_fix_of_both(random, &grids.two)
    }
}

/// An angle along the axes of the three grids, where some node has the given correction.
fn angle(random: &mut Random, axes: [Axis; 3], correction: i32) -> i64 {
    let [coarse, heights, dense] = axes;
    match random.below(100) {
        0..16 => any_angle(random, &coarse, correction.into()),
        16..22 => any_angle(random, &heights, correction.into()),
        22..50 => any_angle(random, &dense, correction.into()),
        50..66 => beside_a_bound(random, &dense, 1),
        66..76 => beside_a_bound(random, &dense, 4),
        76..80 => beside_a_bound(random, &heights, 1),
        _ => in_common(random, [dense, heights])
            .unwrap_or_else(|| any_angle(random, &dense, correction.into())),
    }
}
