//! Kind 3 of edition 2: all latitude corrections, then all longitude corrections.

use super::nodes::{Nodes, Point};
use super::second::{open_kind, Opened};
use super::slopes::Steps;
use super::two_grids::{self, Corrections, TwoGrids};
use super::{found, Number};
use crate::Way;

/// The corrections of a grid: the latitude corrections, and the bytes of the longitude corrections.
struct Planes<'a> {
    latitudes: Nodes<'a, 1>,
    longitudes: &'a [u8],
}

// A function of its own, so that the other kinds' code does not bear on its speed.
#[inline(never)]
pub fn list(way: Way, image: &[u8], fixes: &[i64], answers: &mut [i64]) -> Number {
    two_grids::list(open(image), way, fixes, answers)
}

// As above.
#[inline(never)]
pub fn grid_check(image: &[u8], findings: &mut [i64; 6]) -> Number {
    found(findings, open(image).and_then(|grid| grid.check()))
}

impl<'a> Planes<'a> {
    /// The planes in the bytes that kind 0 has for nodes.
    fn of(nodes: Nodes<'a, 2>) -> Planes<'a> {
        let (latitudes, longitudes) = nodes.nodes.split_at(nodes.nodes.len() / 2);
        let latitudes = Nodes {
            nodes: latitudes,
            latitude: nodes.latitude,
            longitude: nodes.longitude,
        };
        Planes {
            latitudes,
            longitudes,
        }
    }

    /// The longitude corrections, on the axes of the others: these are read once for both.
    #[inline]
    fn longitudes(&self) -> Nodes<'a, 1> {
        Nodes {
            nodes: self.longitudes,
            ..self.latitudes
        }
    }
}

impl Corrections for Planes<'_> {
    #[inline]
    fn holds(&self, p: Point) -> bool {
        self.latitudes.holds(p)
    }

    #[inline]
    fn at(&self, p: Point) -> Result<[i64; 2], Number> {
        let place = self.latitudes.place(p);
        let north = self.latitudes.cell_at(&place)?;
        let east = self.longitudes().cell_at(&place)?;
        Ok([north.value(0), east.value(0)])
    }

    fn steps(&self) -> Result<[Steps; 2], Number> {
        let ([north], [east]) = (self.latitudes.steps()?, self.longitudes().steps()?);
        Ok([north, east])
    }

    fn judge_slopes(&self, [north, east]: &[Steps; 2]) -> Result<(), Number> {
        self.latitudes.judge_slopes(&[*north])?;
        self.longitudes().judge_slopes(&[*east])
    }
}

/// Questions 1 to 6 of an image whose kind is 3: those of kind 0.
fn open(image: &[u8]) -> Result<Opened<'_, Planes<'_>>, Number> {
    let two = open_kind(image, 3)?;
    Ok(Opened(TwoGrids {
        corrections: Planes::of(two.corrections),
        heights: two.heights,
    }))
}
