//! The made-up calls: each follows from a seed and an index alone. Here those of edition 1, with
//! what edition 2's, in `two_grids`, those of its kind 1, in `three_grids`, those of its kind 2, in
//! `unbounded`, those of its kind 3, in `planes`, and those over grid files, in `files`, share with
//! them.

mod axis;
mod damage;
pub mod files;
mod fixes;
mod geometry;
mod grid;
mod lists;
mod notations;
mod over_grids;
pub mod planes;
pub mod three_grids;
pub mod two_grids;
pub mod unbounded;
pub mod values;

use crate::random::Random;
use crate::{Call, Way};
use grid::Grid;

/// Among so many cases stands one over the largest grid that document 01 allows.
const LARGEST_GRID_EVERY: u64 = 100_000;

/// Is the case of this index the one over the largest grid?
pub fn has_largest_grid(index: u64) -> bool {
    index % LARGEST_GRID_EVERY == LARGEST_GRID_EVERY / 2
}

/// The call of one case.
pub fn call(seed: u64, index: u64) -> Call {
    let mut random = Random::for_case(seed, index);
    if has_largest_grid(index) {
        return largest_grid_call(&mut random);
    }
    match random.below(100) {
        0..12 => Call::GridCheck {
            image: grid::any_grid(&mut random).image(),
        },
        12..48 => lists::list_out(&mut random),
        48..68 => lists::list_back(&mut random),
        68..86 => damaged_image_call(&mut random),
        86..93 => notations::reading(&mut random),
        _ => notations::writing(&mut random),
    }
}

/// A call over an image that is damaged, most often, or has bytes before its first node.
fn damaged_image_call(random: &mut Random) -> Call {
    let grid = grid::any_grid(random);
    let image = damage::damaged_image(random, &grid);
    any_call_over(random, &grid, image)
}

fn largest_grid_call(random: &mut Random) -> Call {
    let grid = grid::largest_grid(random);
    let image = grid.image();
    any_call_over(random, &grid, image)
}

/// The check or a list over an image, with fixes that suit the grid it was made from.
fn any_call_over(random: &mut Random, grid: &Grid<3>, image: Vec<u8>) -> Call {
    check_or_list(random, image, |random, way, image| {
        lists::list_over(random, way, grid, image)
    })
}

/// The check or a list of either way over an image.
fn check_or_list(
    random: &mut Random,
    image: Vec<u8>,
    list_over: impl Fn(&mut Random, Way, Vec<u8>) -> Call,
) -> Call {
    match random.below(3) {
        0 => Call::GridCheck { image },
        1 => list_over(random, Way::Out, image),
        _ => list_over(random, Way::Back, image),
    }
}
