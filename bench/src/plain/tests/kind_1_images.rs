//! Questions 1 to 6 and 20 of kind 1.

use super::GEOMETRY;
use crate::grid::{Geometry, Grid};
use crate::plain::{grid_check, list};
use crate::Way;

const HEIGHTS: Geometry = Geometry {
    rows: 4,
    columns: 5,
    ..GEOMETRY
};

/// The whole of the corrections, each spacing divided by 5 and by 2.
const DENSE: Geometry = Geometry {
    latitude_spacing: 200,
    longitude_spacing: 500,
    rows: 11,
    columns: 5,
    ..GEOMETRY
};

/// Where the dense geometry begins, and its parts from there on.
const DENSE_TRAILER: usize = 8 * 55;
const SPACING: usize = 16;
const ROWS: usize = 24;
const BACK: usize = 32;

/// An image of zeros with this dense grid.
fn image(dense: Geometry) -> Vec<u8> {
    let coarse = Grid::of_zeros(GEOMETRY, Some(HEIGHTS));
    coarse.with_dense(dense, |_, _| [0, 0]).image
}

fn number(image: &[u8]) -> i64 {
    let number = grid_check(image, &mut [0; 6]);
    assert_eq!(list(Way::Out, image, &[], &mut []), number);
    number
}

/// The number with these numbers put in: at a place of the dense geometry, or of the trailer at the
/// image's end counted from there.
fn with(changes: &[(usize, u32)], at_the_end: &[(usize, u32)]) -> i64 {
    let mut image = image(DENSE);
    let end = image.len();
    let dense = changes
        .iter()
        .map(|(at, number)| (DENSE_TRAILER + at, number));
    let other = at_the_end
        .iter()
        .map(|(from_end, number)| (end - from_end, number));
    for (at, number) in dense.chain(other) {
        image[at..at + 4].copy_from_slice(&number.to_le_bytes());
    }
    number(&image)
}

#[test]
fn lengths() {
    let image = image(DENSE);
    let rest = 8 * 9 + 4 * 20 + 80;
    assert_eq!(image.len(), DENSE_TRAILER + 36 + rest);
    let last = |bytes: usize| number(&image[image.len() - bytes..]);
    assert_eq!([79, 80, rest, rest + 35].map(last), [1; 4]);
    assert_eq!([rest + 36, image.len() - 1].map(last), [6; 2]);
    assert_eq!(number(&[&[255; 7], &image[..]].concat()), 0);
}

/// The kind comes before the 36 bytes, and these before question 3.
#[test]
fn kinds_and_backs_to_the_corrections() {
    let (kind, back) = (8, 16);
    assert_eq!(with(&[], &[(kind, 4), (back, u32::MAX)]), 2);
    assert_eq!(with(&[(ROWS, 1)], &[(kind, 2), (back, u32::MAX)]), 6);
    assert_eq!(with(&[(ROWS, 1)], &[(back, u32::MAX)]), 1);
    assert_eq!(with(&[(ROWS, 1)], &[(kind, 0)]), 0);
}

/// Each question is put to the dense grid last, before the next one.
#[test]
fn geometries() {
    let (rows, height_rows, height_spacing) = (56, 24, 32);
    assert_eq!(with(&[(ROWS, 4_097)], &[(height_spacing, 0)]), 3);
    assert_eq!(with(&[(SPACING, 0)], &[(height_rows, 1)]), 3);
    assert_eq!(with(&[(SPACING, 0)], &[(rows, 3)]), 4);
    assert_eq!(with(&[(4, 1 << 31), (BACK, 0)], &[]), 5);
    assert_eq!(with(&[(4, 1 << 31)], &[(height_spacing, 0)]), 4);
    assert_eq!(with(&[(BACK, 8 * 55 + 36)], &[]), 6);
    assert_eq!(with(&[(SPACING, 250), (BACK, 0)], &[]), 6);
}

#[test]
fn dense_grids_that_lie_wrong() {
    let moved = |change: fn(&mut Geometry)| {
        let mut dense = DENSE;
        change(&mut dense);
        number(&image(dense))
    };
    assert_eq!(moved(|_| {}), 0);
    assert_eq!(moved(|it| it.rows = 6), 0);
    assert_eq!(moved(|it| it.rows = 10), 20);
    assert_eq!(moved(|it| it.rows = 16), 20);
    assert_eq!(moved(|it| it.south -= 1_000), 20);
    assert_eq!(moved(|it| it.west += 1), 20);
    assert_eq!(
        moved(|it| (it.longitude_spacing, it.columns) = (400, 6)),
        20
    );
    assert_eq!(
        moved(|it| (it.longitude_spacing, it.columns) = (1_000, 3)),
        0
    );
    assert_eq!(
        moved(|it| (it.longitude_spacing, it.columns) = (2_000, 2)),
        20
    );
}
