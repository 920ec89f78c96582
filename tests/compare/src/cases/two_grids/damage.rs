//! Damaged images of edition 2: every field of the trailer broken, truncations, random bytes,
//! parts that do not touch each other, and fit images with bytes before the first node.

use super::grids::TwoGrids;
use crate::cases::damage::{
    break_geometry, bytes, near_back, random_nodes, truncated, with_trailer, GEOMETRY_FIELDS,
};
use crate::cases::over_grids::Grids;
use crate::random::Random;
use reference::{Trailer, TwoGridTrailer};

/// The grids' image after some damage.
pub fn damaged_image(random: &mut Random, grids: &TwoGrids) -> Vec<u8> {
    let trailer = grids.trailer();
    match random.below(100) {
        0..12 => [bytes(random, 50), grids.image()].concat(),
        12..24 => truncated(random, grids.image(), &lengths_of_note(&trailer)),
        24..28 => random_bytes_of_edition_2(random),
        28..32 => [
            random_nodes(random, trailer.correction_back),
            trailer.write(),
        ]
        .concat(),
        32..34 => [grids.image(), bytes(random, 50)].concat(),
        34..38 => parts_apart(random, grids),
        38..40 => said_to_be_edition_2(random, grids),
        _ => with_broken_trailer(random, grids),
    }
}

/// Lengths at which a question changes its answer, and 1 beside them.
fn lengths_of_note(trailer: &TwoGridTrailer) -> Vec<usize> {
    let (corrections, heights) = (trailer.correction_back, trailer.height_back);
    [40, 40, 80, 80, heights as usize, corrections as usize - 1]
        .into_iter()
        .flat_map(|length| [length - 1, length, length + 1])
        .chain([0, 1])
        .collect()
}

/// Random bytes that end in a kind and edition 2.
fn random_bytes_of_edition_2(random: &mut Random) -> Vec<u8> {
    let mut image = bytes(random, 200);
    let kind: u32 = random.pick(&[0, 0, 1]);
    image.extend(kind.to_le_bytes());
    image.extend(2_u32.to_le_bytes());
    image
}

/// A few bytes between the correction nodes, the height nodes and the trailer, and backs that
/// count them.
fn parts_apart(random: &mut Random, grids: &TwoGrids) -> Vec<u8> {
    let mut trailer = grids.trailer();
    let (gap, other_gap) = random.pick(&[(4, 0), (0, 4), (0, 8), (4, 4), (1, 1), (12, 0)]);
    let image = grids.image();
    let (corrections, rest) = image.split_at(image.len() - trailer.height_back as usize);
    let (heights, _) = rest.split_at(rest.len() - 80);
    trailer.height_back += gap;
    trailer.correction_back += gap + other_gap;
    let filling = |length: u32| vec![0; length as usize];
    [
        corrections,
        &filling(other_gap),
        heights,
        &filling(gap),
        &trailer.write(),
    ]
    .concat()
}

/// An image of edition 1 that says edition 2, its back the kind 0 at times.
fn said_to_be_edition_2(random: &mut Random, grids: &TwoGrids) -> Vec<u8> {
    let mut trailer = Trailer::over(grids.corrections.geometry);
    let nodes = random_nodes(random, trailer.back);
    trailer.edition = 2;
    trailer.back = random.pick(&[0, 0, trailer.back]);
    [nodes, trailer.write()].concat()
}

/// One to three fields broken; then the backs are right for the changed trailer at times.
fn with_broken_trailer(random: &mut Random, grids: &TwoGrids) -> Vec<u8> {
    let mut trailer = grids.trailer();
    for _ in 0..random.pick(&[1, 1, 1, 2, 3]) {
        break_field(random, &mut trailer);
    }
    if random.chance(30) {
        trailer.correction_back = trailer.right_correction_back() as u32;
        trailer.height_back = trailer.right_height_back() as u32;
    }
    with_trailer(grids.image(), trailer.write())
}

/// Sets one of the trailer's fields to a value at or past its limits, or to any value.
pub fn break_field(random: &mut Random, trailer: &mut TwoGridTrailer) {
    let any = random.draw() as u32;
    let field = random.below(GEOMETRY_FIELDS);
    match random.below(20) {
        0..7 => break_geometry(random, &mut trailer.corrections, field),
        7..14 => break_geometry(random, &mut trailer.heights, field),
        14..16 => trailer.correction_back = broken_back(random, trailer.correction_back),
        16..18 => trailer.height_back = broken_back(random, trailer.height_back),
        18 => trailer.kind = random.pick(&[1, 2, 3, 4, 256, 1 << 16, 1 << 24, u32::MAX, any]),
        _ => trailer.edition = random.pick(&[0, 1, 1, 3, 258, 1 << 25, u32::MAX, any]),
    }
}

pub fn broken_back(random: &mut Random, back: u32) -> u32 {
    let any = random.draw() as u32;
    let near = near_back(random, back, &[1, -1, 4, -4, 8, -8, 40, -40, -80]);
    random.pick(&[near, near, near, 0, 80, u32::MAX, any])
}
