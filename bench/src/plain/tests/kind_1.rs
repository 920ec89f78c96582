//! Figures of kind 1, worked out by hand: latitude corrections of 300, 305 and 310 by row over G's
//! geometry, and a dense grid in its north-eastern cell.

use super::{answer, refused, GEOMETRY, SOUTH, WEST};
use crate::grid::{Geometry, Grid};
use crate::plain::grid_check;
use crate::Way::{Back, Out};

const DENSE: Geometry = Geometry {
    south: SOUTH + 1_000,
    west: WEST + 1_000,
    latitude_spacing: 500,
    longitude_spacing: 500,
    rows: 3,
    columns: 3,
};

const HEIGHTS: Geometry = Geometry {
    latitude_spacing: 2_000,
    longitude_spacing: 2_000,
    rows: 2,
    columns: 2,
    ..GEOMETRY
};

/// The coarse grid, with heights of 430,000 at its corners.
fn coarse() -> Grid {
    let correction = |row: u32, _| [300 + 5 * row as i32, -50];
    Grid::new(GEOMETRY, Some(HEIGHTS), correction, |_, _| 430_000)
}

/// Dense rows: one of its own, then the sides with the middle between them, then 310. The coarse
/// grid has 305, 307.5 and 310 there.
fn nested(south: i32, side: i32, middle: i32) -> Grid {
    coarse().with_dense(DENSE, |row, column| match (row, column) {
        (0, _) => [south, -50],
        (1, 1) => [middle, -50],
        (1, _) => [side, -50],
        _ => [310, -50],
    })
}

#[test]
fn corrections_are_dense_in_the_dense_bounds() {
    let grid = nested(306, 307, 309);
    for (point, corrected) in [
        ([1_500, 1_500], [1_809, 1_450]),
        ([1_000, 1_500], [1_306, 1_450]),
        ([999, 1_500], [1_304, 1_450]),
        ([1_500, 1_000], [1_807, 950]),
        ([1_500, 999], [1_808, 949]),
        ([2_000, 2_000], [2_310, 1_950]),
    ] {
        let found = answer(&grid, Back, [point[0], point[1], 0]);
        assert_eq!(found, [corrected[0], corrected[1], 430_000, 1, 0]);
    }
    assert_eq!(answer(&grid, Back, [2_001, 2_000, 0]), refused(8));
}

#[test]
fn ways_out_stop_at_3_with_a_dense_grid() {
    let found = |grid: &Grid, north| answer(grid, Out, [north, 1_450, 430_000]);
    let grid = nested(306, 307, 309);
    assert_eq!(found(&grid, 1_809), [1_500, 1_500, 0, 2, 0]);
    assert_eq!(found(&grid, 1_304), [999, 1_500, 0, 2, 0]);
    assert_eq!(found(&grid, 1_305), [1_000, 1_500, 0, 2, 0]);
    // The last step is one of 2.
    assert_eq!(found(&grid, 900), [597, 1_500, 0, 2, 0]);
    assert_eq!(found(&coarse(), 900), [597, 1_500, 0, 3, 0]);
}

/// An unfit coarse corner of the dense grid is asked beside it alone.
#[test]
fn question_9_asks_the_nodes_that_are_used() {
    let unfit = |row: u32, column: u32| [10_000_000 + i32::from((row, column) == (1, 1)), 0];
    let coarse = Grid::new(GEOMETRY, Some(HEIGHTS), unfit, |_, _| 0);
    let grid = coarse.with_dense(DENSE, |row, _| [if row == 2 { 10_000_001 } else { 7 }, 0]);
    assert_eq!(answer(&grid, Back, [999, 1_500, 0]), refused(9));
    assert_eq!(
        answer(&grid, Back, [1_000, 1_500, 0]),
        [1_007, 1_500, 0, 1, 0]
    );
    assert_eq!(
        answer(&grid, Back, [1_499, 1_000, 0]),
        [1_506, 1_000, 0, 1, 0]
    );
    assert_eq!(answer(&grid, Back, [1_500, 1_500, 0]), refused(9));
}

#[test]
fn check_takes_the_dense_grid_last() {
    let found = |grid: Grid| {
        let mut findings = [-1; 6];
        (grid_check(&grid.image, &mut findings), findings)
    };
    let passes = (0, [5, 0, 0, 0, 0, 0]);
    assert_eq!(found(nested(306, 307, 309)), passes);
    assert_eq!(found(nested(304, 307, 307)), passes);
    assert_eq!(found(nested(306, 308, 308)), passes);
    assert_eq!(found(nested(307, 307, 308)), (21, [-1; 6]));
    // 1 from the rounded 308, and 1.5 from the exact 307.5.
    assert_eq!(found(nested(306, 309, 309)), (21, [-1; 6]));
    assert_eq!(found(nested(306, 307, 310)), (12, [-1; 6]));
    assert_eq!(found(nested(300, 307, 309)), (12, [-1; 6]));
    assert_eq!(found(nested(10_000_001, 307, 309)), (9, [-1; 6]));
}

/// The south-western corner, the north-eastern one, and a longitude between the western corners.
#[test]
fn check_asks_the_whole_border() {
    let number = |row: u32, column: u32, off: [i32; 2]| {
        let grid = coarse().with_dense(DENSE, |at_row, at_column| {
            let mut node = [[305, 307, 310][at_row as usize], -50];
            if (at_row, at_column) == (row, column) {
                node = [node[0] + off[0], node[1] + off[1]];
            }
            node
        });
        grid_check(&grid.image, &mut [0; 6])
    };
    assert_eq!(number(0, 0, [1, -1]), 0);
    assert_eq!(number(0, 0, [2, 0]), 21);
    assert_eq!(number(2, 2, [-2, 0]), 21);
    assert_eq!(number(1, 0, [0, 2]), 21);
    assert_eq!(number(1, 1, [1, 2]), 0);
}
