//! Questions 1 to 6 for kind 1: the layout, the lengths, and each question's limits for the dense
//! grid.

use crate::images::{as_kind_0, coarse_corrections, dense_corrections, small_image, GEOMETRIES};
use crate::limits;
use reference::{open_image, DenseTrailer, Geometry, Grid, Image, Number, TwoGridTrailer};

/// Where the parts of the small image begin.
const DENSE_TRAILER: usize = 120;
const CORRECTIONS: usize = DENSE_TRAILER + 36;
const TRAILER: usize = CORRECTIONS + 224;

/// The coarse and the dense grid of an image that opens as kind 1.
fn opened(image: &[u8]) -> (Grid<'_, 2>, Grid<'_, 2>) {
    match open_image(image) {
        Ok(Image::TwoGrids {
            corrections,
            dense: Some(dense),
            ..
        }) => (corrections, dense),
        other => panic!("{other:?}"),
    }
}

/// The number that the small image gets after a change of its 36 bytes.
fn number_after(change: impl Fn(&mut DenseTrailer)) -> Option<Number> {
    let mut trailer = GEOMETRIES.dense_trailer();
    change(&mut trailer);
    let mut image = small_image();
    image[DENSE_TRAILER..CORRECTIONS].copy_from_slice(&trailer.write());
    open_image(&image).err()
}

/// The number that it gets after a change of its trailer.
fn number_after_trailer(change: impl Fn(&mut TwoGridTrailer)) -> Option<Number> {
    let mut trailer = GEOMETRIES.trailer();
    change(&mut trailer);
    let mut image = small_image();
    image[TRAILER..].copy_from_slice(&trailer.write());
    open_image(&image).err()
}

/// The number after a change of the dense geometry, its back being wrong.
fn number_after_geometry(change: &dyn Fn(&mut Geometry)) -> Option<Number> {
    number_after(|trailer| {
        trailer.back = 0;
        change(&mut trailer.geometry);
    })
}

#[test]
fn dense_layout_is_little_endian_in_the_notes_order() {
    let geometry = |spacing: u8, lines: u8| {
        [
            [1, 0, 0, 0, 0, 0, 0, 0].as_slice(),
            &[254, 255, 255, 255, 255, 255, 255, 255],
            &[spacing, 0, 0, 0, spacing, 0, 0, 0],
            &[lines, 0, 0, 0, lines, 0, 0, 0],
        ]
        .concat()
    };
    let mut image = vec![9; 5];
    image.extend([7, 1, 0, 0, 255, 255, 255, 255].repeat(9));
    image.extend(geometry(2, 3));
    image.extend([252, 0, 0, 0]);
    image.extend([5, 0, 0, 0, 254, 255, 255, 255].repeat(4));
    image.extend([0; 4].repeat(8));
    image.extend(geometry(4, 2));
    image.extend(geometry(3, 2)[..24].iter());
    image.extend([4, 0, 0, 0, 2, 0, 0, 0]);
    image.extend([144, 0, 0, 0, 112, 0, 0, 0, 1, 0, 0, 0, 2, 0, 0, 0]);
    let (coarse, dense) = opened(&image);
    assert_eq!((dense.geometry.south, dense.geometry.west), (1, -2));
    assert_eq!((dense.geometry.north(), dense.geometry.east()), (5, 2));
    assert_eq!(dense.geometry.spacings(), (2, 2));
    assert_eq!(coarse.geometry.spacings(), (4, 4));
    assert_eq!(dense.node(2, 2), [263, -1]);
    assert_eq!(coarse.node(1, 1), [5, -2]);
}

#[test]
fn nodes_are_read_by_each_grids_own_rows_and_columns() {
    let image = [vec![255; 7], small_image()].concat();
    let (coarse, dense) = opened(&image);
    for (row, column) in [(0, 0), (1, 2), (3, 3)] {
        let wanted = coarse_corrections(row, column);
        assert_eq!(coarse.node(row.into(), column.into()), wanted);
    }
    for (row, column) in [(0, 0), (1, 1), (4, 2)] {
        let wanted = dense_corrections(row, column);
        assert_eq!(dense.node(row.into(), column.into()), wanted);
    }
}

/// The correction back is 304, the dense one 460.
#[test]
fn question_1_asks_for_36_bytes_before_the_correction_nodes() {
    let image = small_image();
    let number = |length| open_image(&image[image.len() - length..]).err();
    assert_eq!([39, 79, 80, 304, 339].map(number), [Some(1); 5]);
    assert_eq!([340, 341, 459].map(number), [Some(6); 3]);
    assert_eq!(number(460), None);
}

#[test]
fn question_1_takes_the_back_as_the_trailer_has_it() {
    let number = |back| number_after_trailer(|trailer| trailer.correction_back = back);
    for back in [u32::MAX, 1 << 31, 461, 460, 425] {
        assert_eq!(number(back), Some(1));
    }
    // The image's first 36 bytes, nodes of 104 and −51, as a geometry: its rows and columns.
    assert_eq!(number(424), Some(3));
    // The image's last 36 bytes: its columns are the kind, 1.
    assert_eq!(number(0), Some(3));
    assert_eq!(number(304), None);
}

#[test]
fn question_2_an_unknown_kind_precedes_the_36_bytes() {
    let number = |kind| {
        number_after_trailer(|trailer| {
            trailer.kind = kind;
            trailer.correction_back = u32::MAX;
        })
    };
    for kind in [4, 5, 257, 1 << 24, u32::MAX] {
        assert_eq!(number(kind), Some(2));
    }
    assert_eq!(number(1), Some(1));
    assert_eq!([0, 2, 3].map(number), [Some(6); 3]);
}

#[test]
fn kind_0_does_not_read_the_36_bytes() {
    let mut image = as_kind_0(small_image());
    image[..CORRECTIONS].fill(0);
    assert_eq!(open_image(&image).err(), None);
}

#[test]
fn question_3_the_rows_and_columns_of_the_dense_grid() {
    limits::rows_and_columns(&number_after_geometry);
}

#[test]
fn question_4_the_spacings_of_the_dense_grid() {
    limits::spacings(&number_after_geometry);
}

#[test]
fn question_5_the_bounds_of_the_dense_grid() {
    limits::bounds(&number_after_geometry);
}

/// 8 × 15 + 36 + 304: neither from another end nor without the 36 bytes.
#[test]
fn question_6_the_dense_back() {
    let number = |back| number_after(|trailer| trailer.back = back);
    assert_eq!(number(460), None);
    for back in [459, 461, 452, 468, 424, 156, 120, 0, 336, u32::MAX] {
        assert_eq!(number(back), Some(6));
    }
    let bytes_before = [vec![255; 3], small_image()].concat();
    assert_eq!(open_image(&bytes_before).err(), None);
    assert_eq!(open_image(&small_image()[1..]).err(), Some(6));
}
