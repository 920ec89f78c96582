//! The made-up calls of kind 3: latitudes first, then longitudes, and the conversions into such an
//! image and back.

mod arranging;
mod damage;

use super::over_grids::{any_call_over, list_back, list_out, Grids};
use super::two_grids::grids::{any_two_grids, two_grids_to_move_in, TwoGrids};
use super::two_grids::has_largest_grids;
use crate::random::Random;
use crate::Call;

/// The call of one case.
pub fn call(seed: u64, index: u64) -> Call {
    // The seed is turned so that no case repeats the numbers of another stream's case.
    let random = &mut Random::for_case(seed ^ (1 << 59), index);
    if has_largest_grids(index) {
        return arranging::of_the_largest_grids(random);
    }
    match random.below(100) {
        0..14 => Call::GridCheck {
            image: in_planes(any_two_grids(random)).image(),
        },
        14..34 => {
            let grids = in_planes(two_grids_to_move_in(random));
            list_out(random, grids)
        }
        34..46 => {
            let grids = in_planes(any_two_grids(random));
            list_back(random, grids)
        }
        46..60 => damaged_image_call(random),
        _ => arranging::any_arranging(random),
    }
}

fn in_planes(two: TwoGrids) -> TwoGrids {
    TwoGrids { kind: 3, ..two }
}

/// A call over an image that is damaged, most often, or has bytes before its first node.
fn damaged_image_call(random: &mut Random) -> Call {
    let grids = in_planes(any_two_grids(random));
    let image = damage::damaged_image(random, &grids);
    any_call_over(random, &grids, image)
}
