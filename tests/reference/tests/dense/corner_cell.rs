//! Figures on an image whose dense grid is the coarse grid's north-eastern cell, worked out by hand,
//! as crates/rules/proofs/DenseGrid.antt computes them from the definitions.

use crate::answers::{answer, convert, Way};
use crate::common::{fix_at, nodes_over, G_GEOMETRY, SOUTH, WEST};
use crate::images::as_kind_0;
use reference::{
    grid_check, open_image, way_back, way_out, write_dense, write_two_grids, Answer, DenseTrailer,
    Geometry, Number, TwoGridTrailer,
};

/// What the grid check gives.
type Found = Result<[i128; 6], Number>;

/// The dense grid from these offsets on, of 3 rows and columns.
fn dense_geometry(offset: i64, spacing: u32) -> Geometry {
    Geometry {
        south: SOUTH + offset,
        west: WEST + offset,
        latitude_spacing: spacing,
        longitude_spacing: spacing,
        ..G_GEOMETRY
    }
}

/// G's geometry with latitude corrections of 300, 305 and 310 by row, longitude corrections −50,
/// and heights of 430,000 at its corners; the dense latitude corrections as given.
fn nested(dense: Geometry, latitude: impl Fn(i32, i32) -> i32) -> Vec<u8> {
    let heights = Geometry {
        latitude_spacing: 2_000,
        longitude_spacing: 2_000,
        rows: 2,
        columns: 2,
        ..G_GEOMETRY
    };
    let trailer = TwoGridTrailer {
        kind: 1,
        ..TwoGridTrailer::over(G_GEOMETRY, heights)
    };
    let corrections = nodes_over(&G_GEOMETRY, |row, _| [300 + 5 * row, -50]);
    let rest = write_two_grids(&corrections, &[[430_000]; 4], &trailer);
    let nodes = nodes_over(&dense, |row, column| [latitude(row, column), -50]);
    write_dense(&nodes, &DenseTrailer::over(dense, &trailer), &rest)
}

/// The dense rows: one of its own, then the sides with the middle between them, then 310. The
/// parent has 305, 307.5 and 310 there.
fn by_rows(south: i32, side: i32, middle: i32) -> Vec<u8> {
    nested(dense_geometry(1_000, 500), |row, column| {
        match (row, column) {
            (0, _) => south,
            (1, 1) => middle,
            (1, _) => side,
            _ => 310,
        }
    })
}

/// The first row is 1 nd above the parent, the sides of the second half a nd below.
fn corner() -> Vec<u8> {
    by_rows(306, 307, 309)
}

/// The same with bytes changed, by place and value.
fn changed(changes: &[(usize, u8)]) -> Vec<u8> {
    let mut image = corner();
    for (place, value) in changes {
        image[*place] = *value;
    }
    image
}

const PASSES: Found = Ok([5, 0, 0, 0, 0, 0]);

#[test]
fn the_border_1_nd_off_and_just_past_it() {
    assert_eq!(corner().len(), 276);
    assert_eq!(grid_check(&corner()), PASSES);
    assert_eq!(grid_check(&by_rows(304, 307, 307)), PASSES);
    assert_eq!(grid_check(&by_rows(307, 307, 308)), Err(21));
    // 1 nd from the rounded 308, and 1.5 from the exact 307.5.
    assert_eq!(grid_check(&by_rows(306, 309, 309)), Err(21));
    assert_eq!(grid_check(&by_rows(306, 308, 308)), PASSES);
    // Both far corner nodes, and a longitude.
    for (place, value) in [(0, 52), (64, 52), (4, 204)] {
        assert_eq!(grid_check(&changed(&[(place, value)])), Err(21));
    }
}

#[test]
fn limits_and_slopes_come_before_the_border() {
    assert_eq!(grid_check(&changed(&[(3, 1)])), Err(9));
    assert_eq!(grid_check(&changed(&[(3, 1), (109, 20)])), Err(9));
    assert_eq!(grid_check(&changed(&[(109, 20)])), Err(12));
    assert_eq!(grid_check(&by_rows(306, 307, 310)), Err(12));
    assert_eq!(grid_check(&by_rows(300, 307, 309)), Err(12));
}

fn at(way: Way, image: &[u8], latitude: i64, longitude: i64) -> Result<Answer, Number> {
    convert(way, image, fix_at(latitude, longitude, 0))
}

#[test]
fn back_in_the_dense_grid_on_its_bounds_and_beside_them() {
    for ((latitude, longitude), (to_latitude, to_longitude)) in [
        ((1_500, 1_500), (1_809, 1_450)),
        ((1_000, 1_500), (1_306, 1_450)),
        ((999, 1_500), (1_304, 1_450)),
        ((1_500, 1_000), (1_807, 950)),
        ((1_500, 999), (1_808, 949)),
        ((2_000, 2_000), (2_310, 1_950)),
    ] {
        let found = at(way_back, &corner(), latitude, longitude);
        assert_eq!(found, answer(to_latitude, to_longitude, 430_000, 1));
    }
}

#[test]
fn out_of_the_dense_grid_and_across_its_border() {
    for ((latitude, longitude), (to_latitude, to_longitude)) in [
        ((1_809, 1_450), (1_500, 1_500)),
        ((1_304, 1_450), (999, 1_500)),
        ((1_305, 1_450), (1_000, 1_500)),
        // 2 nd after the first point.
        ((900, 1_450), (597, 1_500)),
    ] {
        let found = at(way_out, &corner(), latitude, longitude);
        assert_eq!(found, answer(to_latitude, to_longitude, -430_000, 2));
    }
    let without = at(way_out, &as_kind_0(corner()), 900, 1_450);
    assert_eq!(without, answer(597, 1_500, -430_000, 3));
}

/// The dense geometry stands from 72 on, its back at 104, the trailer from 196 on.
#[test]
fn the_order_of_the_questions() {
    let number = |changes: &[(usize, u8)]| open_image(&changed(changes)).err();
    assert_eq!(number(&[(260, 241), (96, 1)]), Some(1));
    assert_eq!(number(&[(268, 4), (96, 1)]), Some(2));
    assert_eq!(number(&[(96, 1), (215, 255)]), Some(3));
    assert_eq!(number(&[(100, 1), (215, 255)]), Some(3));
    assert_eq!(number(&[(91, 255), (203, 127)]), Some(4));
    assert_eq!(number(&[(79, 127), (264, 97)]), Some(5));
    assert_eq!(number(&[(104, 21), (88, 243)]), Some(6));
    assert_eq!(open_image(&corner()[1..]).err(), Some(6));
}

#[test]
fn dense_grids_that_lie_wrong() {
    for (offset, spacing) in [(500, 250), (0, 250), (1_000, 1_000), (-1_000, 500)] {
        let image = nested(dense_geometry(offset, spacing), |_, _| 306);
        assert_eq!(open_image(&image).err(), Some(20));
    }
}
