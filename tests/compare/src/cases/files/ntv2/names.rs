//! Made-up names of grids and of their parents: fit ones, and broken.

use super::records::with_one_bit_changed;
use crate::random::Random;
use reference::{text, FileGrid};

/// Any name: letters filled with spaces or with zeros, eight letters, NONE, or any bytes.
fn name(random: &mut Random) -> [u8; 8] {
    let any = random.draw().to_le_bytes();
    let letter = b'A' + random.below(26) as u8;
    let mut short = text("GRID");
    short[3] = letter;
    let with_zeros = short.map(|byte| if byte == b' ' { 0 } else { byte });
    let (full, none) = ([letter; 8], text("NONE"));
    random.pick(&[short, short, with_zeros, with_zeros, full, none, any])
}

/// Names the grids: the first has no parent, the second has the first one.
pub fn write(random: &mut Random, grids: &mut [FileGrid]) {
    let mut parent = text("NONE");
    for grid in grids {
        *grid.header.value_mut("PARENT") = parent;
        parent = name(random);
        *grid.header.value_mut("SUB_NAME") = parent;
    }
}

/// Gives a grid another parent, or at times the first one another name.
pub fn break_parent(random: &mut Random, grids: &mut [FileGrid]) {
    let which = random.below(grids.len() as u64) as usize;
    let names = [0, grids.len() - 1].map(|it| grids[it].header.value("SUB_NAME"));
    if which > 0 && random.chance(15) {
        *grids[0].header.value_mut("SUB_NAME") = with_one_bit_changed(random, names[0]);
        return;
    }
    let parent = grids[which].header.value_mut("PARENT");
    let one_bit = with_one_bit_changed(random, *parent);
    let small = parent.map(|byte| byte.to_ascii_lowercase());
    let filled = parent.map(|byte| if byte == b' ' { 0 } else { byte });
    let mut last_byte = *parent;
    last_byte[7] ^= random.between(1, 255) as u8;
    let of_the_papers = [text("NONE"), names[0], names[1]];
    let other = random.pick(&of_the_papers);
    *parent = random.pick(&[one_bit, one_bit, last_byte, small, filled, other, other]);
}
