//! Made-up calls over the grids of an edition 2 image, whatever its kind: lists, and lists out whose
//! way meets an unfit node at a chosen evaluation.

use super::check_or_list;
use super::grid::Grid;
use super::lists::{fix_with_a_long_way, list_of, list_of_one, node_on_the_way, point_of};
use crate::random::Random;
use crate::steps::{cell_of, points_until_the_stop};
use crate::{Call, Way};
use reference::{open_image, Geometry, Image, Point};

/// The grids of an image before they are written.
pub trait Grids {
    /// The right image.
    fn image(&self) -> Vec<u8>;

    /// A fix of any kind for a way over the right image.
    fn any_fix(&self, random: &mut Random, way: Way, image: &Image) -> [i64; 3];

    /// A fix somewhere in the correction grid, or where the way out is likely to meet it.
    fn inner_fix(&self, random: &mut Random) -> [i64; 3];

    /// Makes one node unfit in a cell of one of the points.
    fn spoil_at(&mut self, random: &mut Random, points: &[Point]);
}

/// A list out over the right image.
pub fn list_out(random: &mut Random, mut grids: impl Grids) -> Call {
    if random.chance(30) {
        let fix = spoil_on_the_way(random, &mut grids);
        return list_of_one(fix, grids.image());
    }
    let image = grids.image();
    list_over(random, Way::Out, &grids, image)
}

/// A list back over the right image.
pub fn list_back(random: &mut Random, grids: impl Grids) -> Call {
    let image = grids.image();
    list_over(random, Way::Back, &grids, image)
}

/// The check or a list over an image, with fixes that suit the grids it was made from.
pub fn any_call_over(random: &mut Random, grids: &impl Grids, image: Vec<u8>) -> Call {
    check_or_list(random, image, |random, way, image| {
        list_over(random, way, grids, image)
    })
}

/// A list over an image, with fixes that suit the grids.
fn list_over(random: &mut Random, way: Way, grids: &impl Grids, image: Vec<u8>) -> Call {
    let fit_bytes = grids.image();
    let fit_image = open_image(&fit_bytes).expect("a fit image");
    let any = |random: &mut Random| grids.any_fix(random, way, &fit_image);
    let inner = |random: &mut Random| grids.inner_fix(random);
    list_of(random, way, image, any, inner)
}

/// Makes one node unfit in a cell on the way out from a fix, which is given. The last correction
/// cell on the way is that of pn, which edition 2 does not ask.
fn spoil_on_the_way(random: &mut Random, grids: &mut impl Grids) -> [i64; 3] {
    let bytes = grids.image();
    let image = open_image(&bytes).expect("a fit image");
    let inner = |random: &mut Random| grids.inner_fix(random);
    let fix = if random.chance(50) {
        fix_with_a_long_way(random, &image, inner)
    } else {
        inner(random)
    };
    let points = points_until_the_stop(&image, point_of(fix));
    grids.spoil_at(random, &points);
    fix
}

/// Makes one node of a grid unfit, in a cell of one of those points that are in its bounds.
pub fn spoil_cell<const VALUES: usize>(
    random: &mut Random,
    grid: &mut Grid<VALUES>,
    points: &[Point],
) {
    let cells = cells_of(&grid.geometry, points);
    if !cells.is_empty() {
        let (row, column) = node_on_the_way(random, &cells);
        let node = grid.index(row, column);
        grid.spoil(random, node);
    }
}

/// The cells of those points that are in the bounds.
fn cells_of(geometry: &Geometry, points: &[Point]) -> Vec<(i64, i64)> {
    points
        .iter()
        .filter(|point| geometry.contains(**point))
        .map(|point| cell_of(geometry, *point))
        .collect()
}
