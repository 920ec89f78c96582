//! Kind 2 of edition 2: fixes past the edge are answered too.

use super::nodes::{Bounds, Nodes, Trailer};
use super::two_grids::{self, corrections_of, grids, height_of, Source};
use crate::Way;

struct Grid<'a> {
    corrections: Nodes<'a, 8>,
    heights: Nodes<'a, 4>,
    bounds: Bounds,
    height_bounds: Bounds,
}

// A function of its own, so that the other kinds' code does not bear on its speed.
#[inline(never)]
pub fn list(way: Way, image: &[u8], fixes: &[i64], answers: &mut [i64]) -> i64 {
    let trailer = Trailer::of(image, 80);
    let (corrections, heights) = grids(image, &trailer);
    let grid = Grid {
        corrections,
        heights,
        bounds: trailer.bounds(0),
        height_bounds: trailer.bounds(32),
    };
    two_grids::list(&grid, way, fixes, answers)
}

impl Source for Grid<'_> {
    const STOP: f64 = 1.0;

    /// Zero outside the bounds.
    #[inline]
    fn corrections(&self, latitude: i64, longitude: i64) -> [f64; 2] {
        if self.bounds.hold(latitude, longitude) {
            corrections_of(&self.corrections, latitude, longitude)
        } else {
            [0.0; 2]
        }
    }

    #[inline]
    fn height(&self, latitude: i64, longitude: i64) -> Option<i64> {
        let is_on = self.height_bounds.hold(latitude, longitude);
        is_on.then(|| height_of(&self.heights, latitude, longitude))
    }
}
