//! Figures of edition 2, worked out by hand: G's corrections, and heights from 500 south and 100
//! west of G's corner on, with spacings of 500 and 800, of 430,000 + 2 × row + 4 × column.

use super::{answer, correction, refused, GEOMETRY, SOUTH, WEST};
use crate::grid::{Geometry, Grid};
use crate::plain::grid_check;
use crate::Way::{Back, Out};

/// So many rows of heights: 6 reach G's northern bound, 5 end 500 before it.
fn heights(rows: u32) -> Geometry {
    Geometry {
        south: SOUTH - 500,
        west: WEST - 100,
        latitude_spacing: 500,
        longitude_spacing: 800,
        rows,
        columns: 4,
    }
}

fn height(row: u32, column: u32) -> i32 {
    430_000 + 2 * row as i32 + 4 * column as i32
}

fn grid(rows: u32) -> Grid {
    Grid::new(GEOMETRY, Some(heights(rows)), correction, height)
}

#[test]
fn height_is_that_of_its_own_grid() {
    let found = |way, fix| answer(&grid(6), way, fix);
    // Row 2 and 3/4 of a column; then 5/8 of a column, whose half goes up.
    assert_eq!(found(Back, [500, 500, 10_000]), [602, 450, 440_007, 1, 0]);
    assert_eq!(found(Back, [500, 400, 10_000]), [602, 350, 440_007, 1, 0]);
    assert_eq!(found(Back, [500, 399, 10_000]), [602, 349, 440_006, 1, 0]);
    assert_eq!(found(Out, [602, 450, 440_007]), [500, 500, 10_000, 2, 0]);
    // The northern bound of both grids.
    let corner = [2_108, 1_950, 430_021, 1, 0];
    assert_eq!(found(Back, [2_000, 2_000, 0]), corner);
    assert_eq!(found(Back, [2_001, 2_000, 0]), refused(8));
    assert_eq!(found(Out, [50, 500, 0]), refused(10));
}

#[test]
fn off_the_heights() {
    let found = |way, fix| answer(&grid(5), way, fix);
    assert_eq!(found(Back, [1_500, 500, 0]), [1_606, 450, 430_011, 1, 0]);
    assert_eq!(found(Back, [1_501, 500, 0]), refused(15));
    assert_eq!(found(Out, [1_606, 450, 430_011]), [1_500, 500, 0, 2, 0]);
    assert_eq!(found(Out, [1_607, 450, 430_011]), refused(15));
}

/// Back: the corrections' 9, then 15, then the heights' 9.
#[test]
fn nodes_beyond_their_limits() {
    let north_beyond = |row: u32, _| [if row == 2 { 10_000_001 } else { 100 }, 0];
    let short = Grid::new(GEOMETRY, Some(heights(5)), north_beyond, |_, _| 1_000_001);
    assert_eq!(answer(&short, Back, [1_501, 500, 0]), refused(9));
    assert_eq!(answer(&short, Back, [999, 500, 0]), refused(9));
    let far = |_, _| [0, 0];
    let short = Grid::new(GEOMETRY, Some(heights(5)), far, |_, _| -1_000_001);
    assert_eq!(answer(&short, Back, [1_501, 500, 0]), refused(15));
    assert_eq!(answer(&short, Back, [1_500, 500, 0]), refused(9));
    assert_eq!(answer(&short, Out, [1_501, 500, 0]), refused(15));
    assert_eq!(answer(&short, Out, [1_500, 500, 0]), refused(9));
}

/// The corrections' cell of pn, here that of p1 north of p0's, is not asked for the height.
#[test]
fn height_does_not_ask_the_corrections() {
    let correction = |row: u32, _| [if row == 2 { 10_000_001 } else { -1 }, 0];
    let grid = Grid::new(GEOMETRY, Some(heights(6)), correction, |_, _| 7);
    assert_eq!(answer(&grid, Out, [999, 500, 0]), [1_000, 500, -7, 1, 0]);
}

#[test]
fn check_takes_each_grids_spacings() {
    let found = |height: fn(u32, u32) -> i32| {
        let grid = Grid::new(GEOMETRY, Some(heights(6)), correction, height);
        let mut findings = [-1; 6];
        (grid_check(&grid.image, &mut findings), findings)
    };
    assert_eq!(found(height), (0, [4, 0, 0, 0, 2, 4]));
    // 100 × (A × 800 + B × 500) is above 500 × 800; with the corrections' spacings it would pass.
    let steeper = |row: u32, column: u32| 3 * row as i32 + 4 * column as i32;
    assert_eq!(found(steeper), (12, [-1; 6]));
    let beyond = |row: u32, column: u32| {
        if (row, column) == (5, 3) {
            1_000_001
        } else {
            0
        }
    };
    assert_eq!(found(beyond), (9, [-1; 6]));
}

#[test]
fn check_asks_the_limits_before_the_slopes() {
    let steep = |row: u32, _| [1_000 * row as i32, 0];
    let number = |height: i32| {
        let grid = Grid::new(GEOMETRY, Some(heights(6)), steep, |_, _| height);
        grid_check(&grid.image, &mut [0; 6])
    };
    assert_eq!(number(1_000_000), 12);
    assert_eq!(number(1_000_001), 9);
}
