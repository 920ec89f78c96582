//! Kind 3 of edition 2: all latitude corrections, then all longitude corrections.

use super::nodes::{Nodes, Trailer};
use super::two_grids::{self, grids, height_of, Source};
use crate::Way;

struct Grid<'a> {
    /// The latitude corrections, and the bytes from one of them to its longitude correction.
    latitudes: Nodes<'a, 4>,
    to_longitude: usize,
    heights: Nodes<'a, 4>,
}

// A function of its own, so that the other kinds' code does not bear on its speed.
#[inline(never)]
pub fn list(way: Way, image: &[u8], fixes: &[i64], answers: &mut [i64]) -> i64 {
    let trailer = Trailer::of(image, 80);
    let (latitudes, heights) = grids(image, &trailer);
    let grid = Grid {
        latitudes,
        to_longitude: (trailer.short(64) - trailer.short(68)) as usize / 2,
        heights,
    };
    two_grids::list(&grid, way, fixes, answers)
}

impl Source for Grid<'_> {
    const STOP: f64 = 1.0;

    #[inline]
    fn corrections(&self, latitude: i64, longitude: i64) -> [f64; 2] {
        let place = self.latitudes.place(latitude, longitude);
        [0, self.to_longitude].map(|it| self.latitudes.value(&place, it))
    }

    #[inline]
    fn height(&self, latitude: i64, longitude: i64) -> Option<i64> {
        Some(height_of(&self.heights, latitude, longitude))
    }
}
