//! Some of document 01's figures for its grid G.

use super::{answer, correction, refused, GEOMETRY};
use crate::grid::Grid;
use crate::plain::grid_check;
use crate::Way::{Back, Out};

fn grid_g() -> Grid {
    Grid::new(GEOMETRY, None, correction, |_, column| {
        430_000 + 5 * column as i32
    })
}

#[test]
fn figures_of_grid_g() {
    let found = |way, fix| answer(&grid_g(), way, fix);
    assert_eq!(found(Back, [500, 500, 10_000]), [602, 450, 440_003, 1, 0]);
    assert_eq!(found(Out, [602, 450, 440_003]), [500, 500, 10_000, 2, 0]);
    let corner = [2_108, 1_950, 430_010, 1, 0];
    assert_eq!(found(Back, [2_000, 2_000, 0]), corner);
    assert_eq!(found(Back, [2_001, 2_000, 0]), refused(8));
    assert_eq!(found(Out, [50, 500, 0]), refused(10));
}

#[test]
fn check_of_grid_g() {
    let mut findings = [-1; 6];
    assert_eq!(grid_check(&grid_g().image, &mut findings), 0);
    assert_eq!(findings, [4, 0, 0, 0, 0, 5]);
}

/// Question 9 is put to all three values of the cell of pn too, here that of p1 north of p0's.
#[test]
fn height_asks_the_corrections() {
    let correction = |row: u32, _| [if row == 2 { 10_000_001 } else { -1 }, 0];
    let grid = Grid::new(GEOMETRY, None, correction, |_, _| 0);
    assert_eq!(answer(&grid, Out, [998, 500, 0]), [999, 500, 0, 1, 0]);
    assert_eq!(answer(&grid, Out, [999, 500, 0]), refused(9));
}
