//! Figures of kind 2, worked out by hand: corrections of 5 and −4 for each step from the border of 5
//! rows and columns over G's corner, and heights from (−400, 100) to (1700, 1900).

use super::{answer, refused, GEOMETRY, SOUTH, WEST};
use crate::grid::{Geometry, Grid};
use crate::plain::grid_check;
use crate::Way::{Back, Out};

const CORRECTIONS: Geometry = Geometry {
    rows: 5,
    columns: 5,
    ..GEOMETRY
};

const HEIGHTS: Geometry = Geometry {
    south: SOUTH - 400,
    west: WEST + 100,
    latitude_spacing: 700,
    longitude_spacing: 900,
    rows: 4,
    columns: 3,
};

fn tent(row: u32, column: u32) -> [i32; 2] {
    let steps = row.min(4 - row).min(column).min(4 - column) as i32;
    [5 * steps, -4 * steps]
}

fn sloping(row: u32, column: u32) -> i32 {
    430_000 + 3 * row as i32 + 4 * column as i32
}

fn with(correction: impl Fn(u32, u32) -> [i32; 2], height: impl Fn(u32, u32) -> i32) -> Grid {
    Grid::new(CORRECTIONS, Some(HEIGHTS), correction, height).unbounded()
}

#[test]
fn fixes_in_the_bounds_and_past_them() {
    let grid = with(tent, sloping);
    let out = |fix| answer(&grid, Out, fix);
    let back = |fix| answer(&grid, Back, fix);
    assert_eq!(back([1_000, 1_000, 10_000]), [1_005, 996, 440_010, 1, 0]);
    assert_eq!(out([1_005, 996, 440_010]), [1_000, 1_000, 10_000, 2, 0]);
    assert_eq!(back([2_000, 2_000, 10_000]), [2_010, 1_992, 0, 1, 100]);
    assert_eq!(out([2_010, 1_992, 10_000]), [2_000, 2_000, 0, 2, 100]);
    assert_eq!(back([1_700, 1_900, 0]), [1_708, 1_893, 430_017, 1, 0]);
    assert_eq!(back([1_701, 1_900, 0]), [1_709, 1_893, 0, 1, 100]);
    assert_eq!(out([-1, 500, 430_010]), [-1, 500, 7, 1, 0]);
    assert_eq!(out([5_000, 0, -5]), [5_000, 0, 0, 1, 100]);
    let far = [38_000_000_000, -185_000_000_000];
    assert_eq!(back([far[0], far[1], 5]), [far[0], far[1], 0, 1, 100]);
    assert_eq!(out([far[0] + 1, far[1], 5]), refused(7));
    assert_eq!(out([5_000, 0, 100_000_001]), refused(7));
}

/// On the bounds 7 is found, and 1 nd past them zero.
#[test]
fn bounds_are_included() {
    let grid = with(|_, _| [7, 7], |_, _| 9);
    let back = |north, east| answer(&grid, Back, [north, east, 0])[..2].to_vec();
    assert_eq!(back(0, 0), [7, 7]);
    assert_eq!(back(4_000, 4_000), [4_007, 4_007]);
    assert_eq!(back(-1, 500), [-1, 500]);
    assert_eq!(back(4_001, 500), [4_001, 500]);
    assert_eq!(back(500, -1), [500, -1]);
    assert_eq!(back(500, 4_001), [500, 4_001]);
    // Across the bound and back again.
    assert_eq!(answer(&grid, Out, [6, 500, 0]), refused(11));
}

#[test]
fn question_9_asks_the_cells_that_are_used() {
    let grid = with(|_, _| [10_000_001, 0], |_, _| 1_000_001);
    assert_eq!(answer(&grid, Back, [0, 0, 0]), refused(9));
    assert_eq!(answer(&grid, Back, [0, -1, 0]), [0, -1, 0, 1, 100]);
    assert_eq!(answer(&grid, Back, [-400, 100, 0]), refused(9));
    assert_eq!(answer(&grid, Out, [-400, 99, 0]), [-400, 99, 0, 1, 100]);
}

#[test]
fn check_asks_the_border_between_9_and_12() {
    let number = |at: (u32, u32), put: [i32; 2], height: i32| {
        let correction = |row, column| match (row, column) {
            place if place == at => put,
            (2, 2) if put[1] == 1 => [16, -8],
            _ => tent(row, column),
        };
        let grid = with(correction, |row, _| if row == 3 { height } else { 0 });
        grid_check(&grid.image, &mut [0; 6])
    };
    assert_eq!(number((0, 0), [0, 0], 0), 0);
    for place in [
        (0, 0),
        (0, 4),
        (4, 0),
        (4, 4),
        (0, 2),
        (4, 2),
        (2, 0),
        (2, 4),
    ] {
        assert_eq!(number(place, [-1, 0], 0), 22);
        assert_eq!(number(place, [0, 1], 0), 22);
    }
    assert_eq!(number((1, 1), [4, -3], 0), 0);
    assert_eq!(number((2, 2), [16, -8], 0), 12);
    assert_eq!(number((0, 0), [1, 0], 1_000_001), 9);
    let mut findings = [-1; 6];
    let grid = with(tent, sloping);
    assert_eq!(grid_check(&grid.image, &mut findings), 0);
    assert_eq!(findings, [5, 5, 4, 4, 3, 4]);
}
