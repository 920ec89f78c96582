//! Made-up conversions into another arrangement: of fit images with and without bytes before the first
//! node, of images of other kinds and editions, of damaged ones, and for buffers of every length of
//! note.

use super::damage::damaged_image;
use crate::cases::damage::{self, bytes};
use crate::cases::grid::any_grid;
use crate::cases::over_grids::Grids;
use crate::cases::three_grids::damage as dense_damage;
use crate::cases::three_grids::grids::any_three_grids;
use crate::cases::two_grids::grids::{any_two_grids, largest_grids, TwoGrids};
use crate::cases::unbounded::damage as unbounded_damage;
use crate::cases::unbounded::grids::any_unbounded;
use crate::random::Random;
use crate::{Arranging, Call, Way};
use reference::{open_image, Arrangement};

/// A conversion of any manner.
pub fn any_arranging(random: &mut Random) -> Call {
    let arrangement = random.pick(&[Arrangement::Nodes, Arrangement::Planes]);
    let grids = TwoGrids {
        kind: arrangement.other().kind(),
        ..any_two_grids(random)
    };
    let (image, fit_buffers) = match random.below(100) {
        0..64 => (grids.image(), 75),
        64..82 => (image_of_another_kind(random, arrangement), 50),
        _ => (damaged(random, &grids), 60),
    };
    let image = with_bytes_before(random, image);
    let fixes = fixes_over(random, &grids);
    let fit = random.chance(fit_buffers);
    arranging_of(random, arrangement, image, fixes, fit)
}

/// A conversion of an image with 4,096 rows and columns in both grids.
pub fn of_the_largest_grids(random: &mut Random) -> Call {
    let arrangement = random.pick(&[Arrangement::Nodes, Arrangement::Planes]);
    let grids = TwoGrids {
        kind: arrangement.other().kind(),
        ..largest_grids(random)
    };
    let fixes = grids.inner_fix(random).to_vec();
    arranging_of(random, arrangement, grids.image(), fixes, true)
}

/// The conversion of an image for a buffer of the exact length or of another.
fn arranging_of(
    random: &mut Random,
    arrangement: Arrangement,
    image: Vec<u8>,
    fixes: Vec<i64>,
    fit: bool,
) -> Call {
    let mut arranging = Arranging {
        arrangement,
        buffer_length: image.len(),
        image,
        fixes,
    };
    if let Some(length) = arranging.length_from_the_first_node() {
        arranging.buffer_length = length;
    }
    if !fit {
        arranging.buffer_length = other_length(random, &arranging);
    }
    Call::Arrange(arranging)
}

/// A fit image that the conversion does not take: of edition 1, with a dense grid, unbounded, or in
/// the arrangement already.
fn image_of_another_kind(random: &mut Random, arrangement: Arrangement) -> Vec<u8> {
    match random.below(4) {
        0 => any_grid(random).image(),
        1 => any_three_grids(random).image(),
        2 => any_unbounded(random).image(),
        _ => {
            let kind = arrangement.kind();
            let grids = any_two_grids(random);
            TwoGrids { kind, ..grids }.image()
        }
    }
}

/// A damaged image, of the grids most often, else of another kind or edition.
fn damaged(random: &mut Random, grids: &TwoGrids) -> Vec<u8> {
    match random.below(10) {
        0 => {
            let grid = any_grid(random);
            damage::damaged_image(random, &grid)
        }
        1..4 => {
            let grids = any_three_grids(random);
            dense_damage::damaged_image(random, &grids)
        }
        4 => {
            let grids = any_unbounded(random);
            unbounded_damage::damaged_image(random, &grids)
        }
        _ => damaged_image(random, grids),
    }
}

/// The image, at times with bytes before it.
fn with_bytes_before(random: &mut Random, image: Vec<u8>) -> Vec<u8> {
    let most = random.pick(&[1, 1, 1, 2, 9, 50]);
    [bytes(random, most), image].concat()
}

/// Fixes for a list over the grids' right image.
fn fixes_over(random: &mut Random, grids: &TwoGrids) -> Vec<i64> {
    let bytes = grids.image();
    let image = open_image(&bytes).expect("a fit image");
    let length = random.pick(&[0, 1, 2, 4, 8]);
    let fixes = (0..length).flat_map(|_| match random.below(3) {
        0 => grids.any_fix(random, Way::Out, &image),
        1 => grids.any_fix(random, Way::Back, &image),
        _ => grids.inner_fix(random),
    });
    fixes.collect()
}

/// A buffer with a byte or a value more or less, as long as the whole image, without the trailer or
/// the heights, empty, or of any length.
fn other_length(random: &mut Random, arranging: &Arranging) -> usize {
    let (right, whole) = (arranging.buffer_length, arranging.image.len());
    let less = |by: usize| right.saturating_sub(by);
    let some = random.below(2 * right as u64 + 2) as usize;
    let lengths = [less(1), less(1), right + 1, right + 1, whole, whole, whole];
    let further = [less(4), right + 4, less(8), less(80), 0, right / 2, some];
    let length = random.pick(&[lengths, further].concat());
    if length == right {
        right + 1
    } else {
        length
    }
}
