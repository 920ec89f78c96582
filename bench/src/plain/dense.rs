//! Kind 1 of edition 2: a dense grid inside that of the corrections.

use super::nodes::{Nodes, Point};
use super::trailer::{all_axes, Trailer};
use super::two_grids::{self, Corrections, Source, TwoGrids};
use super::{found, Number};
use crate::Way;

/// An opened image.
struct Opened<'a> {
    two: TwoGrids<'a>,
    dense: Nodes<'a, 2>,
}

// A function of its own, so that the other kind's code does not bear on its speed.
#[inline(never)]
pub fn list(way: Way, image: &[u8], fixes: &[i64], answers: &mut [i64]) -> Number {
    two_grids::list(open(image), way, fixes, answers)
}

impl<'a> Source for Opened<'a> {
    type Corrections = Nodes<'a, 2>;
    const STOP: i64 = 3;
    const BOUNDED: bool = true;

    #[inline]
    fn two_grids(&self) -> &TwoGrids<'a> {
        &self.two
    }

    /// Of the dense grid in its bounds, else of the coarse one.
    #[inline]
    fn corrections(&self, p: Point) -> Result<[i64; 2], Number> {
        let is_dense = self.dense.holds(p);
        let nodes = if is_dense {
            &self.dense
        } else {
            &self.two.corrections
        };
        nodes.at(p)
    }
}

// As above.
#[inline(never)]
pub fn grid_check(image: &[u8], findings: &mut [i64; 6]) -> Number {
    found(findings, open(image).and_then(|grid| check(&grid)))
}

/// Question 9 over the nodes of all grids, then question 12 with each grid's own spacings, then 21.
fn check(grid: &Opened) -> Result<[i64; 6], Number> {
    let steps = grid.two.steps()?;
    let dense_steps = grid.dense.steps()?;
    let findings = grid.two.judge_slopes(steps)?;
    grid.dense.judge_slopes(&dense_steps)?;
    if border_agrees(&grid.dense, &grid.two.corrections) {
        Ok(findings)
    } else {
        Err(21)
    }
}

/// Whether no node of the first and last rows and columns is further than 1 from the parent's exact
/// value there.
fn border_agrees(dense: &Nodes<2>, parent: &Nodes<2>) -> bool {
    dense.border().all(|(row, column)| {
        let point = Point {
            latitude: dense.latitude.angle(row),
            longitude: dense.longitude.angle(column),
        };
        let node = dense.values_at(row, column);
        (0..2).all(|value| !parent.differs(point, value, node[value]))
    })
}

/// Questions 1 to 6 and 20 of an image with edition 2's trailer whose kind is 1.
fn open(image: &[u8]) -> Result<Opened<'_>, Number> {
    let trailer = Trailer(&image[image.len() - 80..]);
    let correction_back = trailer.short(64) as usize;
    let Some(end) = image.len().checked_sub(36 + correction_back) else {
        return Err(1);
    };
    let dense_trailer = Trailer(&image[end..end + 36]);
    let [corrections, heights, (latitude, longitude)] =
        all_axes([(&trailer, 0), (&trailer, 32), (&dense_trailer, 0)])?;
    let two = TwoGrids::open(image, &trailer, corrections, heights)?;
    let back = 8 * latitude.count * longitude.count + 36 + correction_back;
    if dense_trailer.short(32) as usize != back || back > image.len() {
        return Err(6);
    }
    let coarse = &two.corrections;
    if !coarse.latitude.takes_in(&latitude) || !coarse.longitude.takes_in(&longitude) {
        return Err(20);
    }
    let dense = Nodes {
        nodes: &image[image.len() - back..end],
        latitude,
        longitude,
    };
    Ok(Opened { two, dense })
}
