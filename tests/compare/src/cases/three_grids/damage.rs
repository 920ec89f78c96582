//! Damaged images of kind 1: every field of the 36 bytes and of the trailer broken, a dense grid
//! that is misaligned or reaches outside, truncations, random bytes, parts that do not touch each
//! other, other kinds, and fit images with bytes before the first node.

use super::grids::ThreeGrids;
use crate::cases::damage::{
    break_geometry, bytes, near_back, random_nodes, truncated, GEOMETRY_FIELDS,
};
use crate::cases::over_grids::Grids;
use crate::cases::two_grids::damage::{break_field, broken_back};
use crate::random::Random;
use reference::{DenseTrailer, Geometry, TwoGridTrailer};

/// The bytes of the dense trailer.
const DENSE_TRAILER: usize = 36;

/// The grids' image after some damage.
pub fn damaged_image(random: &mut Random, grids: &ThreeGrids) -> Vec<u8> {
    match random.below(100) {
        0..10 => [bytes(random, 50), grids.image()].concat(),
        10..20 => truncated(random, grids.image(), &lengths_of_note(grids)),
        20..23 => random_bytes_of_kind_1(random),
        23..26 => with_random_nodes(random, grids),
        26..28 => [grids.image(), bytes(random, 50)].concat(),
        28..33 => parts_apart(random, grids),
        33..53 => misaligned(random, grids),
        53..58 => as_another_kind(random, grids),
        58..80 => with_broken_dense_trailer(random, grids),
        _ => with_broken_trailer(random, grids),
    }
}

/// Lengths at which a question changes its answer, and 1 beside them.
fn lengths_of_note(grids: &ThreeGrids) -> Vec<usize> {
    let (trailer, dense) = (grids.trailer(), grids.dense_trailer());
    let corrections = trailer.correction_back as usize;
    let with_36 = corrections + DENSE_TRAILER;
    [
        40,
        80,
        corrections,
        with_36,
        with_36,
        dense.back as usize - 1,
    ]
    .into_iter()
    .flat_map(|length| [length - 1, length, length + 1])
    .chain([0, 1, trailer.height_back as usize])
    .collect()
}

/// Random bytes that end in kind 1 and edition 2.
fn random_bytes_of_kind_1(random: &mut Random) -> Vec<u8> {
    let mut image = bytes(random, 300);
    let back: u32 = random.pick(&[0, 80, 100]);
    for number in [back, 80, 1, 2] {
        image.extend(number.to_le_bytes());
    }
    image
}

/// The right trailers with random nodes before them, at times too few.
fn with_random_nodes(random: &mut Random, grids: &ThreeGrids) -> Vec<u8> {
    let (trailer, dense) = (grids.trailer(), grids.dense_trailer());
    let mut rest = grids.two.image_with(&trailer);
    for byte in rest.iter_mut().take(trailer.correction_back as usize - 80) {
        *byte = random.draw() as u8;
    }
    [random_nodes(random, dense.back), dense.write(), rest].concat()
}

/// A few bytes after one of the parts, and backs that count them, or do not.
fn parts_apart(random: &mut Random, grids: &ThreeGrids) -> Vec<u8> {
    let (mut trailer, mut dense) = (grids.trailer(), grids.dense_trailer());
    let image = grids.image();
    let backs = [trailer.correction_back, trailer.height_back, 80];
    let [corrections, heights, end] = backs.map(|back| image.len() - back as usize);
    let gap = random.pick(&[1, 4, 8, 36]);
    // After the dense nodes, the 36 bytes, the correction nodes or the height nodes.
    let place = random.below(4) as usize;
    let counted = random.chance(80);
    let added = |back: u32, from: usize| back + u32::from(counted && place >= from) * gap;
    dense.back = added(dense.back, 0);
    trailer.correction_back = added(trailer.correction_back, 2);
    trailer.height_back = added(trailer.height_back, 3);
    let parts = [
        &image[..corrections - DENSE_TRAILER],
        &dense.write(),
        &image[corrections..heights],
        &image[heights..end],
    ];
    let mut apart = Vec::new();
    for (index, part) in parts.into_iter().enumerate() {
        apart.extend(part);
        apart.extend(vec![0; if place == index { gap as usize } else { 0 }]);
    }
    apart.extend(trailer.write());
    apart
}

/// The right image of grids whose dense one lies otherwise.
fn misaligned(random: &mut Random, grids: &ThreeGrids) -> Vec<u8> {
    let trailer = grids.trailer();
    let mut geometry = grids.dense.geometry;
    misalign(random, &mut geometry, &trailer.corrections);
    let dense = DenseTrailer::over(geometry, &trailer);
    let nodes = geometry.nodes().min(100_000) as usize;
    let mut image: Vec<u8> = vec![0; 8 * nodes];
    image.extend(dense.write());
    image.extend(grids.two.image_with(&trailer));
    image
}

/// Moves or widens the dense grid along one axis, or gives it another spacing.
fn misalign(random: &mut Random, dense: &mut Geometry, coarse: &Geometry) {
    let in_latitude = random.chance(50);
    let (low, spacing, lines, coarse_spacing) = if in_latitude {
        (
            &mut dense.south,
            &mut dense.latitude_spacing,
            &mut dense.rows,
            coarse.latitude_spacing,
        )
    } else {
        (
            &mut dense.west,
            &mut dense.longitude_spacing,
            &mut dense.columns,
            coarse.longitude_spacing,
        )
    };
    let ratio = (coarse_spacing / *spacing).max(1);
    let steps = [1, i64::from(*spacing), i64::from(coarse_spacing)];
    match random.below(13) {
        0..3 => *low += random.sign() * random.pick(&steps),
        3 => *lines = lines.saturating_sub(1).max(2),
        4 => *lines += 1,
        5 => *lines += ratio * random.pick(&[1, 1, 2, 5]),
        6..9 => {
            // The other bound stays.
            let inward = if *lines > 2 { random.sign() } else { -1 };
            *low += inward * i64::from(*spacing);
            *lines = lines.wrapping_add_signed(-inward as i32);
        }
        9..12 => another_spacing(random, spacing, lines),
        _ => *spacing = spacing.saturating_add_signed(random.sign() as i32).max(1),
    }
}

/// Another spacing between the same bounds, which may be no part of the coarse one.
fn another_spacing(random: &mut Random, spacing: &mut u32, lines: &mut u32) {
    let extent = u64::from(*spacing) * u64::from(*lines - 1);
    let divides = |cells: &u64| extent % cells == 0 && extent / cells <= 100_000_000;
    let cells: Vec<u64> = (1..=40).filter(divides).collect();
    if !cells.is_empty() {
        let chosen = random.pick(&cells);
        *spacing = (extent / chosen) as u32;
        *lines = chosen as u32 + 1;
    }
}

/// The image with another kind, for which bytes before the correction nodes have no meaning, or
/// which is not known.
fn as_another_kind(random: &mut Random, grids: &ThreeGrids) -> Vec<u8> {
    let any = random.draw() as u32;
    let trailer = TwoGridTrailer {
        kind: random.pick(&[0, 0, 2, 3, 4, 257, 1 << 24, u32::MAX, any]),
        ..grids.trailer()
    };
    grids.image_with(&grids.dense_trailer(), &trailer)
}

/// One or two fields of the 36 bytes broken; then back is right for the changed ones at times.
fn with_broken_dense_trailer(random: &mut Random, grids: &ThreeGrids) -> Vec<u8> {
    let mut trailer = grids.trailer();
    let mut dense = grids.dense_trailer();
    for _ in 0..random.pick(&[1, 1, 2]) {
        break_dense_field(random, &mut dense, &trailer);
    }
    if random.chance(40) {
        dense.back = dense.right_back(&trailer) as u32;
    }
    if random.chance(40) {
        break_geometry_of_another(random, &mut trailer);
    }
    grids.image_with(&dense, &trailer)
}

/// Breaks a field of the corrections' or the heights' geometry.
fn break_geometry_of_another(random: &mut Random, trailer: &mut TwoGridTrailer) {
    let field = random.below(GEOMETRY_FIELDS);
    let geometry = if random.chance(50) {
        &mut trailer.corrections
    } else {
        &mut trailer.heights
    };
    break_geometry(random, geometry, field);
}

fn break_dense_field(random: &mut Random, dense: &mut DenseTrailer, trailer: &TwoGridTrailer) {
    let field = random.below(GEOMETRY_FIELDS + 3);
    if field < GEOMETRY_FIELDS {
        return break_geometry(random, &mut dense.geometry, field);
    }
    let nodes = (8 * dense.geometry.nodes()) as u32;
    let near = near_back(random, dense.back, &[1, -1, 8, -8, 36, -36, 80, -80]);
    let from_corrections = dense.back.wrapping_sub(trailer.correction_back);
    let any = random.draw() as u32;
    dense.back = random.pick(&[
        near,
        near,
        near,
        nodes,
        from_corrections,
        trailer.correction_back,
        0,
        u32::MAX,
        any,
    ]);
}

/// One or two fields of the trailer broken, the back to the correction nodes often; then backs are
/// right for the changed trailer at times.
fn with_broken_trailer(random: &mut Random, grids: &ThreeGrids) -> Vec<u8> {
    let mut trailer = grids.trailer();
    for _ in 0..random.pick(&[1, 1, 2]) {
        break_field(random, &mut trailer);
    }
    if random.chance(30) {
        trailer.correction_back = other_correction_back(random, grids);
    }
    let mut dense = grids.dense_trailer();
    if random.chance(30) {
        trailer.correction_back = trailer.right_correction_back() as u32;
        trailer.height_back = trailer.right_height_back() as u32;
        dense.back = dense.right_back(&trailer) as u32;
    }
    grids.image_with(&dense, &trailer)
}

/// A back to the correction nodes that is too large, or lets other bytes be read as the 36.
fn other_correction_back(random: &mut Random, grids: &ThreeGrids) -> u32 {
    let length = grids.image().len() as u32;
    let any = random.below(u64::from(length)) as u32;
    let broken = broken_back(random, grids.trailer().correction_back);
    random.pick(&[
        length,
        length - 35,
        length - 36,
        length - 37,
        u32::MAX,
        u32::MAX - 35,
        broken,
        any,
    ])
}
