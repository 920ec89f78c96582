//! Damaged images of kind 2: as those of kind 0, and the same bytes of other kinds.

use super::grids::Unbounded;
use crate::cases::damage::bytes;
use crate::cases::two_grids::damage;
use crate::random::Random;
use reference::TwoGridTrailer;

/// The grids' image after some damage.
pub fn damaged_image(random: &mut Random, grids: &Unbounded) -> Vec<u8> {
    match random.below(100) {
        0..20 => as_another_kind(random, grids),
        20..24 => random_bytes_of_kind_2(random),
        _ => damage::damaged_image(random, &grids.two),
    }
}

/// The image with a kind that puts the other questions, that has other parts, or that is not known.
fn as_another_kind(random: &mut Random, grids: &Unbounded) -> Vec<u8> {
    let any = random.draw() as u32;
    let trailer = TwoGridTrailer {
        kind: random.pick(&[0, 0, 0, 1, 3, 4, 258, 1 << 17, 1 << 25, u32::MAX, any]),
        ..grids.two.trailer()
    };
    grids.two.image_with(&trailer)
}

/// Random bytes that end in kind 2 and edition 2.
fn random_bytes_of_kind_2(random: &mut Random) -> Vec<u8> {
    let mut image = bytes(random, 200);
    image.extend([2_u32, 2].into_iter().flat_map(u32::to_le_bytes));
    image
}
