//! Made-up fixes for kind 2: in both grids and outside of either, on the bounds and 1 nd beside
//! them, far away, at 90 and 180 degrees, and, going out, ending there.

use crate::cases::axis::Axis;
use crate::cases::fixes::any_angle;
use crate::cases::two_grids::fixes::{any_fix_by, beside_a_bound, in_common, inner_fix_of_both};
use crate::cases::two_grids::grids::TwoGrids;
use crate::random::Random;
use crate::Way;
use reference::Image;

/// A fix of any manner.
pub fn any_fix(random: &mut Random, way: Way, grids: &TwoGrids, image: &Image) -> [i64; 3] {
    any_fix_by(random, way, grids, image, angle)
}

/// A fix in the correction grid, or with an angle up to a few nd beside one of its bounds.
pub fn fix_around(random: &mut Random, grids: &TwoGrids) -> [i64; 3] {
    let mut fix = inner_fix_of_both(random, grids);
    let geometry = &grids.corrections.geometry;
    if random.chance(40) {
        let axis = random.below(2) as usize;
        let axes = [Axis::latitude(geometry), Axis::longitude(geometry)];
        let limit = axes[axis].limit;
        fix[axis] = beside_a_bound(random, &axes[axis], 6).clamp(-limit, limit);
    }
    fix
}

/// An angle along the axes of both grids, where some node has the given correction.
fn angle(random: &mut Random, axes: [Axis; 2], correction: i32) -> i64 {
    let [corrections, heights] = axes;
    let limit = corrections.limit;
    match random.below(100) {
        0..34 => any_angle(random, &corrections, correction.into()),
        34..46 => any_angle(random, &heights, correction.into()),
        46..60 => beside_a_bound(random, &corrections, 1),
        60..70 => beside_a_bound(random, &heights, 1),
        70..78 => random.around_zero(limit),
        78..84 => random.sign() * limit,
        _ => in_common(random, axes)
            .unwrap_or_else(|| any_angle(random, &corrections, correction.into())),
    }
}
