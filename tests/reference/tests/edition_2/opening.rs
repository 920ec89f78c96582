//! Questions 1 to 6 for edition 2: the layout, each question's limits for each grid, and the
//! order of the questions across the two grids.

use crate::common::grid_g;
use crate::images::{g_corrections, sloping_heights, small_image, trailer};
use crate::limits;
use reference::{open_image, Geometry, Grid, Image, Number, TwoGridTrailer};

/// The two grids of an image that opens as edition 2.
fn opened(image: &[u8]) -> (Grid<'_, 2>, Grid<'_, 1>) {
    match open_image(image) {
        Ok(Image::TwoGrids {
            corrections,
            heights,
            dense: None,
            unbounded: false,
        }) => (corrections, heights),
        other => panic!("{other:?}"),
    }
}

/// The small image with another trailer.
fn image_with(trailer: &TwoGridTrailer) -> Vec<u8> {
    [&small_image()[..120], &trailer.write()].concat()
}

/// The number that the small image gets after a change of its trailer.
fn number_after(change: impl Fn(&mut TwoGridTrailer)) -> Option<Number> {
    let mut trailer = trailer();
    change(&mut trailer);
    open_image(&image_with(&trailer)).err()
}

/// One of the trailer's two grids.
#[derive(Clone, Copy)]
enum Which {
    Corrections,
    Heights,
}

impl Which {
    fn geometry(self, trailer: &mut TwoGridTrailer) -> &mut Geometry {
        match self {
            Which::Corrections => &mut trailer.corrections,
            Which::Heights => &mut trailer.heights,
        }
    }

    fn back(self, trailer: &mut TwoGridTrailer) -> &mut u32 {
        match self {
            Which::Corrections => &mut trailer.correction_back,
            Which::Heights => &mut trailer.height_back,
        }
    }
}

/// The number after a change of the correction geometry, which is also the one after the same
/// change of the height geometry, both backs being wrong.
fn number_after_either(change: &dyn Fn(&mut Geometry)) -> Option<Number> {
    let [number, other] = [Which::Corrections, Which::Heights].map(|which| {
        number_after(|trailer| {
            (trailer.correction_back, trailer.height_back) = (0, 0);
            change(which.geometry(trailer));
        })
    });
    assert_eq!(number, other);
    number
}

#[test]
fn trailer_layout_is_little_endian_in_the_notes_order() {
    let geometry = |south: u8, rows: u8| {
        [
            [south, 0, 0, 0, 0, 0, 0, 0].as_slice(),
            &[254, 255, 255, 255, 255, 255, 255, 255],
            &[3, 0, 0, 0, 4, 0, 0, 0, rows, 0, 0, 0, 2, 0, 0, 0],
        ]
        .concat()
    };
    let mut image = vec![9; 5];
    image.extend([5, 0, 0, 0, 255, 255, 255, 255].repeat(6));
    image.extend([7, 1, 0, 0].repeat(4));
    image.extend(geometry(1, 3));
    image.extend(geometry(2, 2));
    image.extend([144, 0, 0, 0, 96, 0, 0, 0, 0, 0, 0, 0, 2, 0, 0, 0]);
    let (corrections, heights) = opened(&image);
    let corner = |it: Geometry| (it.south, it.west);
    let far_corner = |it: Geometry| (it.north(), it.east());
    assert_eq!(corner(corrections.geometry), (1, -2));
    assert_eq!(far_corner(corrections.geometry), (7, 2));
    assert_eq!(corner(heights.geometry), (2, -2));
    assert_eq!(far_corner(heights.geometry), (5, 2));
    assert_eq!(corrections.node(2, 1), [5, -1]);
    assert_eq!(heights.node(1, 1), [263]);
}

#[test]
fn nodes_are_read_by_each_grids_own_rows_and_columns() {
    let image = [vec![255; 7], small_image()].concat();
    let (corrections, heights) = opened(&image);
    for (row, column) in [(0, 0), (1, 2), (2, 1)] {
        let wanted = g_corrections(row, column);
        assert_eq!(corrections.node(row.into(), column.into()), wanted);
    }
    for (row, column) in [(0, 0), (1, 2), (3, 2)] {
        let wanted = sloping_heights(row, column);
        assert_eq!(heights.node(row.into(), column.into()), wanted);
    }
}

#[test]
fn question_1_asks_for_40_bytes_then_after_the_edition_for_80() {
    let image = small_image();
    let number = |length| open_image(&image[image.len() - length..]).err();
    assert_eq!([39, 40, 79].map(number), [Some(1); 3]);
    assert_eq!([80, 199].map(number), [Some(6); 2]);
    assert_eq!(number(200), None);
    let third = image_with(&TwoGridTrailer {
        edition: 3,
        ..trailer()
    });
    let number = |length| open_image(&third[third.len() - length..]).err();
    assert_eq!([39, 40, 79, 80].map(number), [1, 2, 2, 2].map(Some));
}

#[test]
fn question_1_precedes_the_kind() {
    let image = image_with(&TwoGridTrailer {
        kind: 4,
        ..trailer()
    });
    let number = |length| open_image(&image[image.len() - length..]).err();
    assert_eq!([79, 80, 200].map(number), [1, 2, 2].map(Some));
}

#[test]
fn question_2_an_unknown_kind_precedes_question_3() {
    let number = |kind| {
        number_after(|trailer| {
            trailer.kind = kind;
            (trailer.corrections.rows, trailer.heights.rows) = (1, 1);
        })
    };
    for kind in [4, 5, 256, 258, 259, 1 << 24, u32::MAX] {
        assert_eq!(number(kind), Some(2));
    }
    assert_eq!(number(0), Some(3));
    assert_eq!([2, 3].map(number), [Some(3); 2]);
}

#[test]
fn question_2_the_edition() {
    let number = |edition| number_after(|trailer| trailer.edition = edition);
    for edition in [0, 3, 258, u32::MAX] {
        assert_eq!(number(edition), Some(2));
    }
    // The last 40 bytes as edition 1's trailer: its west bound is then the spacings' 8 bytes.
    assert_eq!(number(1), Some(5));
}

/// G's back, 148, stands where edition 2 has its kind.
#[test]
fn an_edition_1_image_that_says_2_is_refused() {
    let mut image = grid_g();
    image[144] = 2;
    assert_eq!(open_image(&image).err(), Some(2));
    assert_eq!(open_image(&image[69..]).err(), Some(1));
}

#[test]
fn question_3_rows_and_columns_of_each_grid() {
    limits::rows_and_columns(&number_after_either);
}

#[test]
fn question_4_the_spacings_of_each_grid() {
    limits::spacings(&number_after_either);
}

#[test]
fn question_5_the_bounds_of_each_grid() {
    limits::bounds(&number_after_either);
}

#[test]
fn question_6_both_backs_and_the_length() {
    let number = |correction_change: i32, height_change: i32| {
        number_after(|trailer| {
            let backs = [&mut trailer.correction_back, &mut trailer.height_back];
            for (back, change) in backs.into_iter().zip([correction_change, height_change]) {
                *back = back.wrapping_add_signed(change);
            }
        })
    };
    assert_eq!(number(0, 0), None);
    for change in [-80, -8, -4, -1, 1, 4, 8, i32::MIN] {
        assert_eq!(number(change, 0), Some(6));
        assert_eq!(number(0, change), Some(6));
        assert_eq!(number(change, change), Some(6));
    }
}

/// Changes one grid's part of the trailer so that the answer to a question, 3 to 6, is no.
fn break_for(question: Number, which: Which, trailer: &mut TwoGridTrailer) {
    match question {
        3 => which.geometry(trailer).rows = 1,
        4 => which.geometry(trailer).longitude_spacing = 0,
        5 => which.geometry(trailer).west = i64::MIN,
        _ => *which.back(trailer) += 1,
    }
}

#[test]
fn each_question_is_put_to_both_grids_before_the_next_one() {
    for of_corrections in 3..=6 {
        for of_heights in 3..=6 {
            let number = number_after(|trailer| {
                break_for(of_corrections, Which::Corrections, trailer);
                break_for(of_heights, Which::Heights, trailer);
            });
            assert_eq!(number, Some(of_corrections.min(of_heights)));
        }
    }
}
