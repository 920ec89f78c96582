//! Damaged images of kind 3, and of kind 0 that are to be converted into it: as those of kind 0, and
//! the same bytes of other kinds.

use crate::cases::damage::bytes;
use crate::cases::two_grids::damage;
use crate::cases::two_grids::grids::TwoGrids;
use crate::random::Random;
use reference::TwoGridTrailer;

/// The grids' image after some damage.
pub fn damaged_image(random: &mut Random, grids: &TwoGrids) -> Vec<u8> {
    match random.below(100) {
        0..16 => as_another_kind(random, grids),
        16..20 => random_bytes(random, grids.kind),
        _ => damage::damaged_image(random, grids),
    }
}

/// The image with a kind whose corrections stand otherwise, that puts other questions, that has other
/// parts, or that is not known.
fn as_another_kind(random: &mut Random, grids: &TwoGrids) -> Vec<u8> {
    let any = random.draw() as u32;
    let other = 3 - grids.kind;
    let with_a_bit = grids.kind | 1 << random.between(8, 31);
    let trailer = TwoGridTrailer {
        kind: random.pick(&[
            other,
            other,
            other,
            1,
            2,
            2,
            4,
            4,
            with_a_bit,
            u32::MAX,
            any,
        ]),
        ..grids.trailer()
    };
    grids.image_with(&trailer)
}

/// Random bytes that end in a kind and edition 2.
fn random_bytes(random: &mut Random, kind: u32) -> Vec<u8> {
    [bytes(random, 200), [kind, 2].map(u32::to_le_bytes).concat()].concat()
}
