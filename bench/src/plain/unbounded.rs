//! Kind 2 of edition 2: fixes past the edge are answered too.

use super::nodes::{Nodes, Point};
use super::second::open_kind;
use super::two_grids::{self, Corrections, Source, TwoGrids};
use super::{found, Number};
use crate::Way;

/// An opened image.
struct Opened<'a>(TwoGrids<'a>);

// A function of its own, so that the other kinds' code does not bear on its speed.
#[inline(never)]
pub fn list(way: Way, image: &[u8], fixes: &[i64], answers: &mut [i64]) -> Number {
    two_grids::list(open_kind(image, 2).map(Opened), way, fixes, answers)
}

impl<'a> Source for Opened<'a> {
    type Corrections = Nodes<'a, 2>;
    const STOP: i64 = 1;
    const BOUNDED: bool = false;

    #[inline]
    fn two_grids(&self) -> &TwoGrids<'a> {
        &self.0
    }

    /// Zero outside the bounds.
    #[inline]
    fn corrections(&self, p: Point) -> Result<[i64; 2], Number> {
        if self.0.corrections.holds(p) {
            self.0.corrections.at(p)
        } else {
            Ok([0, 0])
        }
    }
}

// As above.
#[inline(never)]
pub fn grid_check(image: &[u8], findings: &mut [i64; 6]) -> Number {
    found(findings, open_kind(image, 2).and_then(|grid| check(&grid)))
}

/// Question 9 over the nodes of both grids, then 22, then question 12.
fn check(grid: &TwoGrids) -> Result<[i64; 6], Number> {
    let steps = grid.steps()?;
    let corrections = &grid.corrections;
    let is_zero = |(row, column)| corrections.values_at(row, column) == [0, 0];
    if !corrections.border().all(is_zero) {
        return Err(22);
    }
    grid.judge_slopes(steps)
}
