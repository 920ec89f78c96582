//! The made-up calls of edition 2: heights on a grid of their own.

pub(super) mod damage;
pub(super) mod fixes;
pub(super) mod grids;
mod placing;

use super::over_grids::{any_call_over, list_back, list_out, Grids};
use crate::random::Random;
use crate::Call;

/// Among so many cases stands one over the largest grids that an image can have.
const LARGEST_GRIDS_EVERY: u64 = 200_000;

/// Is the case of this index the one over the largest grids?
pub fn has_largest_grids(index: u64) -> bool {
    index % LARGEST_GRIDS_EVERY == LARGEST_GRIDS_EVERY / 2
}

/// The call of one case.
pub fn call(seed: u64, index: u64) -> Call {
    // The seed is turned so that no case repeats the numbers of edition 1's case of this index.
    let mut random = Random::for_case(!seed, index);
    if has_largest_grids(index) {
        let grids = grids::largest_grids(&mut random);
        let image = grids.image();
        return any_call_over(&mut random, &grids, image);
    }
    match random.below(100) {
        0..20 => Call::GridCheck {
            image: grids::any_two_grids(&mut random).image(),
        },
        20..55 => {
            let grids = grids::two_grids_to_move_in(&mut random);
            list_out(&mut random, grids)
        }
        55..78 => {
            let grids = grids::any_two_grids(&mut random);
            list_back(&mut random, grids)
        }
        _ => damaged_image_call(&mut random),
    }
}

/// A call over an image that is damaged, most often, or has bytes before its first node.
fn damaged_image_call(random: &mut Random) -> Call {
    let grids = grids::any_two_grids(random);
    let image = damage::damaged_image(random, &grids);
    any_call_over(random, &grids, image)
}
