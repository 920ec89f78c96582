//! Made-up pairs of grids for kind 2.

use super::{corrections, fixes};
use crate::cases::geometry;
use crate::cases::grid::Grid;
use crate::cases::over_grids::{spoil_cell, Grids};
use crate::cases::two_grids::grids::{
    any_two_grids, largest_grids, two_grids_to_move_in, with_heights_of_their_own, TwoGrids,
};
use crate::cases::values::{self, Manner, HEIGHT, LIMITS};
use crate::random::Random;
use crate::steps::nearest_point;
use crate::Way;
use reference::{Geometry, Image, Point};

/// Two grids before they are written as an image of kind 2.
pub struct Unbounded {
    pub two: TwoGrids,
}

impl Unbounded {
    fn of(two: TwoGrids) -> Unbounded {
        Unbounded {
            two: TwoGrids { kind: 2, ..two },
        }
    }
}

impl Grids for Unbounded {
    fn image(&self) -> Vec<u8> {
        self.two.image()
    }

    fn any_fix(&self, random: &mut Random, way: Way, image: &Image) -> [i64; 3] {
        fixes::any_fix(random, way, &self.two, image)
    }

    /// Often near a bound of the corrections.
    fn inner_fix(&self, random: &mut Random) -> [i64; 3] {
        fixes::fix_around(random, &self.two)
    }

    /// Of either grid, often in the cells nearest to the points: outside these are not asked.
    fn spoil_at(&mut self, random: &mut Random, points: &[Point]) {
        let nearest = random.chance(40);
        let seen = |geometry: &Geometry| {
            let near = |point: &Point| nearest_point(geometry, *point);
            points.iter().map(near).collect::<Vec<_>>()
        };
        let TwoGrids {
            corrections,
            heights,
            ..
        } = &mut self.two;
        match (random.chance(50), nearest) {
            (true, true) => {
                let points = seen(&corrections.geometry);
                spoil_cell(random, corrections, &points);
            }
            (false, true) => {
                let points = seen(&heights.geometry);
                spoil_cell(random, heights, &points);
            }
            (true, false) => spoil_cell(random, corrections, points),
            (false, false) => spoil_cell(random, heights, points),
        }
    }
}

/// Grids of any manner.
pub fn any_unbounded(random: &mut Random) -> Unbounded {
    let mut grids = match random.below(100) {
        0..45 => sloping_from_the_border(random),
        45..46 => from_pole_to_pole(random),
        46..58 => table(random),
        _ => any_two_grids(random),
    };
    match random.below(100) {
        0..20 => corrections::clear_the_border(&mut grids.corrections),
        20..45 => corrections::disturb(random, &mut grids.corrections),
        _ => {}
    }
    Unbounded::of(grids)
}

/// Grids in which the way out goes several steps, more often than in others.
pub fn unbounded_to_move_in(random: &mut Random) -> Unbounded {
    match random.below(100) {
        0..40 => Unbounded::of(table(random)),
        40..65 => Unbounded::of(two_grids_to_move_in(random)),
        65..75 => {
            let mut grids = two_grids_to_move_in(random);
            corrections::clear_the_border(&mut grids.corrections);
            Unbounded::of(grids)
        }
        _ => any_unbounded(random),
    }
}

/// Corrections that are zero on the border and pass the check, most often.
fn sloping_from_the_border(random: &mut Random) -> TwoGrids {
    let lines = match random.below(20) {
        0 => [random.between(40, 60), random.between(40, 60)],
        1..4 => [random.between(2, 4), random.between(2, 30)],
        _ => [random.between(3, 16), random.between(3, 16)],
    };
    let spacings = [0, 1].map(|_| {
        let any = random.between(100, 100_000_000);
        let whole = 200 * random.between(1, 500_000);
        random.pick(&[200, 1_000, 100_000_000, 100_000_000, whole, any])
    });
    let geometry = geometry::placed(random, spacings, lines);
    sloping_over(random, geometry)
}

/// The same over all latitudes or all longitudes.
fn from_pole_to_pole(random: &mut Random) -> TwoGrids {
    let few = random.between(3, 12);
    let spacing = random.between(1_000_000, 100_000_000);
    let geometry = if random.chance(50) {
        geometry::placed(random, [100_000_000, spacing], [1_801, few])
    } else {
        geometry::placed(random, [spacing, 100_000_000], [few, 3_601])
    };
    sloping_over(random, geometry)
}

fn sloping_over(random: &mut Random, geometry: Geometry) -> TwoGrids {
    let planes = [0, 1].map(|_| corrections::from_the_border(random, &geometry));
    let heights = values::plane(random, &geometry, HEIGHT, Manner::Smooth);
    let node = |at: usize| [planes[0][at], planes[1][at], heights[at]];
    let nodes = (0..heights.len()).map(node).collect();
    with_heights_of_their_own(random, Grid::of_all(geometry, nodes))
}

/// Spacings of a few nd and random corrections of some nd: the way out jumps about, out of the
/// bounds and into them, so that every order of stops and unfit cells comes up.
fn table(random: &mut Random) -> TwoGrids {
    let lines = [random.between(2, 12), random.between(2, 12)];
    let spacings = [random.pick(&[1, 1, 2, 3]), random.pick(&[1, 1, 2, 4])];
    let geometry = geometry::placed(random, spacings, lines);
    let reaches = [random.between(1, 9), random.between(0, 9), LIMITS[HEIGHT]];
    let nodes = (0..geometry.nodes())
        .map(|_| reaches.map(|reach| random.around_zero(reach) as i32))
        .collect();
    let mut grid = Grid::of_all(geometry, nodes);
    grid.spoil_some(random, &[0, 0, 1, 3]);
    with_heights_of_their_own(random, grid)
}

/// Both grids with 4,096 rows and columns, the border of the corrections zero or not.
pub fn largest(random: &mut Random) -> Unbounded {
    let mut grids = largest_grids(random);
    if random.chance(60) {
        corrections::clear_the_border(&mut grids.corrections);
    }
    Unbounded::of(grids)
}
