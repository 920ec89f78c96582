//! The made-up calls of kind 2: fixes past the edge, where the correction is zero and the height
//! may be missing.

mod corrections;
pub(super) mod damage;
mod fixes;
pub(super) mod grids;

use super::over_grids::{any_call_over, list_back, list_out, Grids};
use super::two_grids::has_largest_grids;
use crate::random::Random;
use crate::Call;

/// The call of one case.
pub fn call(seed: u64, index: u64) -> Call {
    // The seed is turned so that no case repeats the numbers of another stream's case.
    let random = &mut Random::for_case(seed ^ (1 << 60), index);
    if has_largest_grids(index) {
        let grids = grids::largest(random);
        let image = grids.image();
        return any_call_over(random, &grids, image);
    }
    match random.below(100) {
        0..26 => Call::GridCheck {
            image: grids::any_unbounded(random).image(),
        },
        26..60 => {
            let grids = grids::unbounded_to_move_in(random);
            list_out(random, grids)
        }
        60..82 => {
            let grids = grids::any_unbounded(random);
            list_back(random, grids)
        }
        _ => damaged_image_call(random),
    }
}

/// A call over an image that is damaged, most often, or has bytes before its first node.
fn damaged_image_call(random: &mut Random) -> Call {
    let grids = grids::any_unbounded(random);
    let image = damage::damaged_image(random, &grids);
    any_call_over(random, &grids, image)
}
