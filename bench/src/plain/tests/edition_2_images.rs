//! Questions 1 to 6 of edition 2.

use super::GEOMETRY;
use crate::grid::{Geometry, Grid};
use crate::plain::grid_check;

const HEIGHTS: Geometry = Geometry {
    rows: 4,
    columns: 5,
    ..GEOMETRY
};

/// The places of a geometry's numbers of 4 bytes.
const SPACING: usize = 16;
const ROWS: usize = 24;

/// The places of the trailer's other parts.
const HEIGHT_GEOMETRY: usize = 32;
const BACK: usize = 64;
const HEIGHT_BACK: usize = 68;
const KIND: usize = 72;
const EDITION: usize = 76;

/// An image of zeros.
fn image() -> Vec<u8> {
    Grid::of_zeros(GEOMETRY, Some(HEIGHTS)).image
}

fn number(image: &[u8]) -> i64 {
    grid_check(image, &mut [0; 6])
}

/// The number with these numbers put into the trailer.
fn with(changes: &[(usize, u32)]) -> i64 {
    let mut image = image();
    let trailer = image.len() - 80;
    for (at, number) in changes {
        image[trailer + at..][..4].copy_from_slice(&number.to_le_bytes());
    }
    number(&image)
}

#[test]
fn lengths() {
    let image = image();
    assert_eq!(image.len(), 8 * 9 + 4 * 20 + 80);
    let last = |bytes: usize| number(&image[image.len() - bytes..]);
    assert_eq!(last(39), 1);
    assert_eq!(last(79), 1);
    assert_eq!(last(80), 6);
    assert_eq!(last(image.len() - 1), 6);
    assert_eq!(last(image.len()), 0);
    assert_eq!(number(&[&[255; 7], &image[..]].concat()), 0);
}

#[test]
fn editions_and_kinds() {
    assert_eq!(with(&[(EDITION, 0)]), 2);
    assert_eq!(with(&[(EDITION, 3)]), 2);
    for unknown in [4, 258, 259] {
        assert_eq!(with(&[(KIND, unknown)]), 2);
    }
    for known in [2, 3] {
        assert_eq!(with(&[(KIND, known)]), 0);
        assert_eq!(with(&[(KIND, known), (ROWS, 1)]), 3);
        assert_eq!(with(&[(KIND, known), (BACK, 0)]), 6);
    }
}

/// Each question is put to the corrections and then to the heights before the next one.
#[test]
fn geometries() {
    let height = |at: usize| HEIGHT_GEOMETRY + at;
    assert_eq!(with(&[(ROWS, 1)]), 3);
    assert_eq!(with(&[(height(ROWS), 4_097)]), 3);
    assert_eq!(with(&[(height(ROWS), 1), (SPACING, 0)]), 3);
    assert_eq!(with(&[(SPACING, 0)]), 4);
    assert_eq!(with(&[(height(SPACING), 100_000_001)]), 4);
    // The upper half of the southern latitude.
    assert_eq!(with(&[(4, 1 << 31)]), 5);
    assert_eq!(with(&[(height(4), 0x7FFF_FFFF)]), 5);
    assert_eq!(with(&[(4, 1 << 31), (height(SPACING), 0)]), 4);
    assert_eq!(with(&[(height(4), 1 << 31), (BACK, 0)]), 5);
}

#[test]
fn backs() {
    assert_eq!(with(&[(HEIGHT_BACK, 4 * 20 + 80)]), 0);
    assert_eq!(with(&[(HEIGHT_BACK, 4 * 20 + 84)]), 6);
    assert_eq!(with(&[(BACK, 8 * 9 + 4 * 20 + 80)]), 0);
    assert_eq!(with(&[(BACK, 8 * 9 + 80)]), 6);
}
