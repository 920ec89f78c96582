//! Edition 2: the corrections and the heights each on a grid of their own.

use super::nodes::{Nodes, Trailer};
use super::two_grids::{self, corrections_of, grids, height_of, Source};
use crate::Way;

struct Grid<'a> {
    corrections: Nodes<'a, 8>,
    heights: Nodes<'a, 4>,
}

// A function of its own, so that the other edition's code does not bear on its speed.
#[inline(never)]
pub fn list(way: Way, image: &[u8], fixes: &[i64], answers: &mut [i64]) -> i64 {
    let (corrections, heights) = grids(image, &Trailer::of(image, 80));
    let grid = Grid {
        corrections,
        heights,
    };
    two_grids::list(&grid, way, fixes, answers)
}

impl Source for Grid<'_> {
    const STOP: f64 = 1.0;

    #[inline]
    fn corrections(&self, latitude: i64, longitude: i64) -> [f64; 2] {
        corrections_of(&self.corrections, latitude, longitude)
    }

    #[inline]
    fn height(&self, latitude: i64, longitude: i64) -> Option<i64> {
        Some(height_of(&self.heights, latitude, longitude))
    }
}
