//! Made-up pairs of grids: corrections as in edition 1, heights on a grid of their own.

use super::fixes::{any_fix, inner_fix_of_both};
use super::placing::height_geometry;
use crate::cases::grid::{self, plane_at_the_edge_of_the_check, Grid};
use crate::cases::over_grids::{spoil_cell, Grids};
use crate::cases::values::{any_manner, plane, Manner};
use crate::cases::{geometry, values};
use crate::random::Random;
use crate::Way;
use reference::{write_planes, write_two_grids, Geometry, Image, Point, TwoGridTrailer};

/// Two grids before they are written as an image of a kind that has no others.
pub struct TwoGrids {
    pub corrections: Grid<2>,
    pub heights: Grid<1>,
    pub kind: u32,
}

impl TwoGrids {
    /// The right trailer.
    pub fn trailer(&self) -> TwoGridTrailer {
        TwoGridTrailer {
            kind: self.kind,
            ..TwoGridTrailer::over(self.corrections.geometry, self.heights.geometry)
        }
    }

    /// The image with a trailer: the corrections are arranged as the grids' own kind has them.
    pub fn image_with(&self, trailer: &TwoGridTrailer) -> Vec<u8> {
        let write = match self.kind {
            3 => write_planes,
            _ => write_two_grids,
        };
        write(&self.corrections.nodes, &self.heights.nodes, trailer)
    }
}

impl Grids for TwoGrids {
    fn image(&self) -> Vec<u8> {
        self.image_with(&self.trailer())
    }

    fn any_fix(&self, random: &mut Random, way: Way, image: &Image) -> [i64; 3] {
        any_fix(random, way, self, image)
    }

    /// Often where the height grid is too.
    fn inner_fix(&self, random: &mut Random) -> [i64; 3] {
        inner_fix_of_both(random, self)
    }

    /// Of either grid.
    fn spoil_at(&mut self, random: &mut Random, points: &[Point]) {
        if random.chance(50) {
            spoil_cell(random, &mut self.corrections, points);
        } else {
            spoil_cell(random, &mut self.heights, points);
        }
    }
}

/// Two grids of any kind.
pub fn any_two_grids(random: &mut Random) -> TwoGrids {
    let grid = grid::any_grid(random);
    with_heights_of_their_own(random, grid)
}

/// Two grids in which the way out goes several steps, more often than in others.
pub fn two_grids_to_move_in(random: &mut Random) -> TwoGrids {
    let grid = grid::grid_to_move_in(random);
    with_heights_of_their_own(random, grid)
}

/// The grid's corrections, and heights: its own on the same geometry, at the edge of the check,
/// on any geometry, or on one that lies in some relation to the corrections.
pub fn with_heights_of_their_own(random: &mut Random, grid: Grid<3>) -> TwoGrids {
    let (corrections, same) = grid.split();
    let heights = match random.below(100) {
        0..10 => same,
        10..20 => {
            let (geometry, heights) = plane_at_the_edge_of_the_check(random);
            Grid::of_heights(geometry, heights)
        }
        20..26 => {
            let geometry = geometry::any_geometry(random);
            heights_over(random, geometry)
        }
        _ => {
            let geometry = height_geometry(random, &corrections.geometry);
            heights_over(random, geometry)
        }
    };
    TwoGrids {
        corrections,
        heights,
        kind: 0,
    }
}

/// Heights over a geometry: smooth or in any manner, at times with a bad node.
fn heights_over(random: &mut Random, geometry: Geometry) -> Grid<1> {
    let manner = if random.chance(50) {
        random.pick(&[Manner::Constant, Manner::Smooth, Manner::Smooth])
    } else {
        any_manner(random)
    };
    let heights = plane(random, &geometry, values::HEIGHT, manner);
    let mut grid = Grid::of_heights(geometry, heights);
    if random.chance(12) {
        let node = grid.any_node(random);
        grid.spoil(random, node);
    }
    grid
}

/// Both grids with 4,096 rows and columns: zero but for some nodes, of which one may be unfit.
pub fn largest_grids(random: &mut Random) -> TwoGrids {
    let (corrections, mut heights) = grid::largest_grid(random).split();
    let spacings = [random.between(1, 43_000_000), random.between(1, 87_000_000)];
    heights.geometry = geometry::placed(random, spacings, [4_096, 4_096]);
    TwoGrids {
        corrections,
        heights,
        kind: 0,
    }
}
