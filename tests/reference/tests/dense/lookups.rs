//! Where the dense nodes are used: on the dense bounds and within them, for question 9 too.

use crate::answers::convert;
use crate::common::{fix_at, point_at, G_GEOMETRY};
use crate::images::{as_kind_0, image_of, Geometries, GEOMETRIES};
use reference::{grid_check, open_image, way_back, way_out, Geometry, Number};

const UNFIT: i32 = 10_000_001;

/// Corrections 0 and 0 on the coarse grid, 7 and −7 on the dense one.
fn corrections_at(latitude: i64, longitude: i64) -> [i128; 2] {
    let bytes = image_of(|_, _| [0, 0], |_, _| [7, -7]);
    let image = open_image(&bytes).unwrap();
    image.corrections(point_at(latitude, longitude)).unwrap()
}

#[test]
fn all_four_bounds_and_corners_are_in_the_dense_grid() {
    for latitude in [1_000, 1_001, 1_500, 1_999, 2_000] {
        for longitude in [1_000, 1_001, 1_500, 1_999, 2_000] {
            assert_eq!(corrections_at(latitude, longitude), [7, -7]);
        }
    }
}

#[test]
fn one_nd_beside_a_bound_the_parent_is_used() {
    for along in [999, 1_000, 1_500, 2_000, 2_001] {
        for beside in [999, 2_001] {
            assert_eq!(corrections_at(beside, along), [0, 0]);
            assert_eq!(corrections_at(along, beside), [0, 0]);
        }
    }
}

#[test]
fn heights_are_those_of_kind_0() {
    let kind_1 = image_of(|_, _| [0, 0], |_, _| [7, -7]);
    let images = [as_kind_0(kind_1.clone()), kind_1].map(|bytes| {
        let heights = (0..=3_000).step_by(50).map(|along| {
            let image = open_image(&bytes).unwrap();
            image.height(point_at(along, along))
        });
        heights.collect::<Vec<_>>()
    });
    assert_eq!(images[0], images[1]);
    assert!(images[0].contains(&Err(15)));
}

/// A coarse grid of 5 rows and columns, and a dense one over its four middle cells, whose inner
/// coarse node no cell outside has.
fn wider() -> Geometries {
    let coarse = Geometry {
        rows: 5,
        columns: 5,
        ..G_GEOMETRY
    };
    let dense = Geometry {
        rows: 9,
        columns: 5,
        ..GEOMETRIES.dense
    };
    Geometries {
        coarse,
        dense,
        ..GEOMETRIES
    }
}

/// The numbers going back and out with one unfit coarse node.
fn with_unfit_coarse_node(at: (i32, i32), latitude: i64, longitude: i64) -> [Option<Number>; 2] {
    let unfit = |row, column| [if (row, column) == at { UNFIT } else { 0 }, 0];
    let image = wider().image(unfit, |_, _| [0, 0]);
    assert_eq!(grid_check(&image), Err(9));
    let fix = fix_at(latitude, longitude, 0);
    [way_back, way_out].map(|way| convert(way, &image, fix).err())
}

#[test]
fn question_9_does_not_ask_the_parent_in_the_dense_grid() {
    assert_eq!(with_unfit_coarse_node((2, 2), 1_999, 2_001), [None; 2]);
    for (latitude, longitude) in [(1_000, 1_000), (1_000, 1_999), (1_999, 1_000)] {
        let numbers = with_unfit_coarse_node((1, 1), latitude, longitude);
        assert_eq!(numbers, [None; 2]);
    }
}

#[test]
fn question_9_asks_the_parent_1_nd_beside_the_dense_grid() {
    for (latitude, longitude) in [(999, 1_000), (1_000, 999), (999, 1_999), (1_999, 999)] {
        let numbers = with_unfit_coarse_node((1, 1), latitude, longitude);
        assert_eq!(numbers, [Some(9); 2]);
    }
    assert_eq!(with_unfit_coarse_node((1, 1), 999, 2_000), [None; 2]);
}

/// The number of the small image's dense point with one value in one node of its cell.
fn with_dense_corner(corner: i32, value: usize, stands_there: i32) -> Option<Number> {
    let bytes = image_of(
        |_, _| [0, 0],
        |row, column| {
            let mut node = [0; 2];
            if (row, column) == (3 + corner / 2, 1 + corner % 2) {
                node[value] = stands_there;
            }
            node
        },
    );
    let image = open_image(&bytes).unwrap();
    // On the north-eastern corner the last dense cell is used.
    image.corrections(point_at(2_000, 2_000)).err()
}

#[test]
fn question_9_asks_both_corrections_of_all_four_dense_nodes() {
    for corner in 0..4 {
        for value in 0..2 {
            for sign in [-1, 1] {
                let number = |size: i32| with_dense_corner(corner, value, sign * size);
                assert_eq!(number(10_000_000), None);
                assert_eq!(number(UNFIT), Some(9));
            }
        }
    }
}

/// South of the dense grid's unfit nodes, and 1 nd beside its bounds, they are not asked.
#[test]
fn question_9_asks_no_other_dense_node() {
    let dense = |row, _| [if row >= 3 { UNFIT } else { 0 }, 0];
    let image = image_of(|_, _| [0, 0], dense);
    let number = |latitude, longitude| {
        let fix = fix_at(latitude, longitude, 0);
        convert(way_back, &image, fix).err()
    };
    assert_eq!(number(1_499, 1_500), None);
    assert_eq!(number(1_500, 1_500), Some(9));
    assert_eq!(number(2_000, 1_500), Some(9));
    assert_eq!(number(2_001, 1_500), None);
    assert_eq!(number(1_800, 2_001), None);
}
