//! Damaged images of edition 1: every field of the trailer broken, truncations, random bytes, a
//! wrong back, and fit images with bytes before the first node.

use super::fixes::any_number;
use super::geometry::{LATITUDE_LIMIT, LONGITUDE_LIMIT};
use super::grid::Grid;
use crate::random::Random;
use reference::{Geometry, Trailer};

/// The grid's image after some damage.
pub fn damaged_image(random: &mut Random, grid: &Grid<3>) -> Vec<u8> {
    match random.below(100) {
        0..15 => [bytes(random, 50), grid.image()].concat(),
        15..25 => truncated(random, grid.image(), &[0, 1, 39, 40, 41]),
        25..30 => bytes(random, 200),
        30..34 => {
            let trailer = Trailer::over(grid.geometry);
            [random_nodes(random, trailer.back), trailer.write()].concat()
        }
        34..37 => [grid.image(), bytes(random, 50)].concat(),
        _ => with_broken_trailer(random, grid),
    }
}

/// Up to so many random bytes.
pub fn bytes(random: &mut Random, most: u64) -> Vec<u8> {
    (0..random.below(most))
        .map(|_| random.draw() as u8)
        .collect()
}

/// A part of the image from either end, of any length or of one of note.
pub fn truncated(random: &mut Random, mut image: Vec<u8>, of_note: &[usize]) -> Vec<u8> {
    let length = image.len();
    let noted = random.pick(of_note);
    let some = random.below(length as u64) as usize;
    match random.below(5) {
        0 => image.split_off(length - noted),
        1 => image.split_off(1),
        2 => image.split_off(some),
        3 => {
            image.truncate(some);
            image
        }
        _ => {
            image.truncate(noted);
            image
        }
    }
}

/// Random bytes for the nodes of an image with this back, too few of them at times.
pub fn random_nodes(random: &mut Random, back: u32) -> Vec<u8> {
    bytes(random, 2 * u64::from(back).min(1_000))
}

/// One to three fields broken; then back is right for the changed trailer at times.
fn with_broken_trailer(random: &mut Random, grid: &Grid<3>) -> Vec<u8> {
    let mut trailer = Trailer::over(grid.geometry);
    for _ in 0..random.pick(&[1, 1, 1, 2, 3]) {
        break_field(random, &mut trailer);
    }
    if random.chance(30) {
        trailer.back = trailer.right_back() as u32;
    }
    with_trailer(grid.image(), trailer.write())
}

/// The image with another trailer of the same length.
pub fn with_trailer(mut image: Vec<u8>, trailer: Vec<u8>) -> Vec<u8> {
    image.truncate(image.len() - trailer.len());
    image.extend(trailer);
    image
}

/// Sets one of the trailer's fields to a value at or past its limits, or to any value.
fn break_field(random: &mut Random, trailer: &mut Trailer) {
    let any = random.draw() as u32;
    match random.below(9) {
        7 => trailer.edition = random.pick(&[0, 2, 3, 257, 1 << 24, u32::MAX, any]),
        8 => {
            let near = near_back(random, trailer.back, &[1, -1, 12, -12, -40]);
            trailer.back = random.pick(&[near, near, 0, 40, u32::MAX, any]);
        }
        field => break_geometry(random, &mut trailer.geometry, field),
    }
}

/// A back that differs by one of the changes.
pub fn near_back(random: &mut Random, back: u32, changes: &[i32]) -> u32 {
    back.wrapping_add_signed(random.pick(changes))
}

/// So many fields a geometry can be broken in: its six, and rows and columns together.
pub const GEOMETRY_FIELDS: u64 = 7;

/// Sets one field of a geometry to a value at or past its limits, or to any value.
pub fn break_geometry(random: &mut Random, geometry: &mut Geometry, field: u64) {
    let (rows, columns) = (geometry.rows, geometry.columns);
    match field {
        0 => geometry.south = any_bound(random, rows, geometry.latitude_spacing, LATITUDE_LIMIT),
        1 => {
            let spacing = geometry.longitude_spacing;
            geometry.west = any_bound(random, columns, spacing, LONGITUDE_LIMIT);
        }
        2 => geometry.latitude_spacing = any_spacing(random),
        3 => geometry.longitude_spacing = any_spacing(random),
        4 => geometry.rows = any_lines(random, rows),
        5 => geometry.columns = any_lines(random, columns),
        _ => (geometry.rows, geometry.columns) = (columns, rows),
    }
}

/// A south or west bound that lies, or puts the other bound, at the limit or 1 nd beside it.
fn any_bound(random: &mut Random, lines: u32, spacing: u32, limit: i64) -> i64 {
    let extent = i64::from(lines)
        .wrapping_sub(1)
        .wrapping_mul(spacing.into());
    let beside = random.between(-1, 1);
    let any = any_number(random);
    let other_bound_at_limit = limit.wrapping_sub(extent).wrapping_add(beside);
    random.pick(&[-limit + beside, limit + beside, other_bound_at_limit, any])
}

fn any_spacing(random: &mut Random) -> u32 {
    let any = random.draw() as u32;
    random.pick(&[0, 1, 2, 100_000_000, 100_000_001, u32::MAX, any])
}

fn any_lines(random: &mut Random, lines: u32) -> u32 {
    let any = random.draw() as u32;
    let near = lines.wrapping_add_signed(random.pick(&[-1, 1]));
    random.pick(&[
        near,
        near,
        0,
        1,
        2,
        4_095,
        4_096,
        4_097,
        65_536,
        1 << 31,
        u32::MAX,
        any,
    ])
}
