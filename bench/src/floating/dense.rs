//! Kind 1 of edition 2: a dense grid inside that of the corrections.

use super::nodes::{Bounds, Nodes, Trailer};
use super::two_grids::{self, corrections_of, grids, height_of, Source};
use crate::Way;

struct Grid<'a> {
    corrections: Nodes<'a, 8>,
    heights: Nodes<'a, 4>,
    dense: Nodes<'a, 8>,
    dense_bounds: Bounds,
}

// A function of its own, so that the other kind's code does not bear on its speed.
#[inline(never)]
pub fn list(way: Way, image: &[u8], fixes: &[i64], answers: &mut [i64]) -> i64 {
    let trailer = Trailer::of(image, 80);
    let (corrections, heights) = grids(image, &trailer);
    let end = image.len() - trailer.short(64) as usize;
    let dense_trailer = Trailer::of(&image[..end], 36);
    let grid = Grid {
        corrections,
        heights,
        dense: Nodes::open(image, &dense_trailer, 0, dense_trailer.short(32)),
        dense_bounds: dense_trailer.bounds(0),
    };
    two_grids::list(&grid, way, fixes, answers)
}

impl Source for Grid<'_> {
    const STOP: f64 = 3.0;

    /// Of the dense grid in its bounds, else of the coarse one.
    #[inline]
    fn corrections(&self, latitude: i64, longitude: i64) -> [f64; 2] {
        let nodes = if self.dense_bounds.hold(latitude, longitude) {
            &self.dense
        } else {
            &self.corrections
        };
        corrections_of(nodes, latitude, longitude)
    }

    #[inline]
    fn height(&self, latitude: i64, longitude: i64) -> Option<i64> {
        Some(height_of(&self.heights, latitude, longitude))
    }
}
