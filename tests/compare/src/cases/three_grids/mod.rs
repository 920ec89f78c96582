//! The made-up calls of kind 1: a dense grid inside the coarse one of the corrections.

mod corrections;
pub(super) mod damage;
mod fixes;
pub(super) mod grids;
pub mod placing;

use super::over_grids::{any_call_over, list_back, list_out, Grids};
use crate::random::Random;
use crate::Call;

/// Among so many cases stands one with the largest dense grid.
const LARGEST_GRID_EVERY: u64 = 200_000;

/// Is the case of this index the one with the largest dense grid?
pub fn has_largest_grid(index: u64) -> bool {
    index % LARGEST_GRID_EVERY == LARGEST_GRID_EVERY / 2
}

/// The call of one case.
pub fn call(seed: u64, index: u64) -> Call {
    // The seed is turned so that no case repeats the numbers of another stream's case.
    let random = &mut Random::for_case(seed ^ (1 << 61), index);
    if has_largest_grid(index) {
        let grids = grids::largest(random);
        let image = grids.image();
        return any_call_over(random, &grids, image);
    }
    match random.below(100) {
        0..24 => Call::GridCheck {
            image: grids::any_three_grids(random).image(),
        },
        24..58 => {
            let grids = grids::three_grids_to_move_in(random);
            list_out(random, grids)
        }
        58..78 => {
            let grids = grids::any_three_grids(random);
            list_back(random, grids)
        }
        _ => damaged_image_call(random),
    }
}

/// A call over an image that is damaged, most often, or has bytes before its first node.
fn damaged_image_call(random: &mut Random) -> Call {
    let grids = grids::any_three_grids(random);
    let image = damage::damaged_image(random, &grids);
    any_call_over(random, &grids, image)
}
