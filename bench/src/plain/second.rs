//! Edition 2: the corrections and the heights each on a grid of their own.

use super::nodes::{Nodes, Point};
use super::trailer::{all_axes, Trailer};
use super::two_grids::{self, Corrections, Source, TwoGrids};
use super::{found, Number};
use crate::Way;

/// An opened image, with its corrections in nodes or otherwise.
pub struct Opened<'a, Corrections>(pub TwoGrids<'a, Corrections>);

// A function of its own, so that the other edition's code does not bear on its speed.
#[inline(never)]
pub fn list(way: Way, image: &[u8], fixes: &[i64], answers: &mut [i64]) -> Number {
    two_grids::list(open(image), way, fixes, answers)
}

impl<C: Corrections> Source for Opened<'_, C> {
    type Corrections = C;
    const STOP: i64 = 1;
    const BOUNDED: bool = true;

    #[inline]
    fn two_grids(&self) -> &TwoGrids<'_, C> {
        &self.0
    }

    #[inline]
    fn corrections(&self, p: Point) -> Result<[i64; 2], Number> {
        self.0.corrections.at(p)
    }
}

// As above.
#[inline(never)]
pub fn grid_check(image: &[u8], findings: &mut [i64; 6]) -> Number {
    found(findings, open(image).and_then(|grid| grid.check()))
}

impl<C: Corrections> Opened<'_, C> {
    /// Question 9 over the nodes of both grids, then question 12 with each grid's own spacings.
    pub fn check(&self) -> Result<[i64; 6], Number> {
        self.0.judge_slopes(self.0.steps()?)
    }
}

/// Questions 1 to 6 of an image whose edition is 2 and whose kind is not 1, 2 or 3.
fn open(image: &[u8]) -> Result<Opened<'_, Nodes<'_, 2>>, Number> {
    open_kind(image, 0).map(Opened)
}

/// Questions 1 to 6 of an image whose edition is 2 and whose kind is to be this one, without dense
/// corrections.
pub fn open_kind(image: &[u8], kind: u32) -> Result<TwoGrids<'_>, Number> {
    let Some(end) = image.len().checked_sub(80) else {
        return Err(1);
    };
    let trailer = Trailer(&image[end..]);
    if trailer.short(72) != kind {
        return Err(2);
    }
    let [corrections, heights] = all_axes([(&trailer, 0), (&trailer, 32)])?;
    TwoGrids::open(image, &trailer, corrections, heights)
}
