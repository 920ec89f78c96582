//! Made-up triples of grids: corrections and heights as in kind 0, and a dense grid inside the
//! corrections'.

use super::placing::{coarse_geometry, dense_geometry, dense_geometry_by};
use super::{corrections, fixes};
use crate::cases::geometry::{self, LINES_LIMIT};
use crate::cases::grid::{steep, Grid};
use crate::cases::over_grids::{spoil_cell, Grids};
use crate::cases::two_grids::grids::{
    any_two_grids, two_grids_to_move_in, with_heights_of_their_own, TwoGrids,
};
use crate::cases::values::{self, Manner, HEIGHT, LIMITS};
use crate::random::Random;
use crate::Way;
use reference::{write_dense, DenseTrailer, Geometry, Image, Point, TwoGridTrailer};

/// Three grids before they are written as an image.
pub struct ThreeGrids {
    pub two: TwoGrids,
    pub dense: Grid<2>,
}

impl ThreeGrids {
    /// The right trailer.
    pub fn trailer(&self) -> TwoGridTrailer {
        TwoGridTrailer {
            kind: 1,
            ..self.two.trailer()
        }
    }

    /// The right 36 bytes.
    pub fn dense_trailer(&self) -> DenseTrailer {
        DenseTrailer::over(self.dense.geometry, &self.trailer())
    }

    /// The image with these trailers.
    pub fn image_with(&self, dense: &DenseTrailer, trailer: &TwoGridTrailer) -> Vec<u8> {
        write_dense(&self.dense.nodes, dense, &self.two.image_with(trailer))
    }
}

impl Grids for ThreeGrids {
    fn image(&self) -> Vec<u8> {
        self.image_with(&self.dense_trailer(), &self.trailer())
    }

    fn any_fix(&self, random: &mut Random, way: Way, image: &Image) -> [i64; 3] {
        fixes::any_fix(random, way, self, image)
    }

    /// Often in the dense grid.
    fn inner_fix(&self, random: &mut Random) -> [i64; 3] {
        fixes::inner_fix_of_three(random, self)
    }

    /// Of any grid: of the coarse one also where the dense one is used.
    fn spoil_at(&mut self, random: &mut Random, points: &[Point]) {
        match random.below(5) {
            0..2 => spoil_cell(random, &mut self.dense, points),
            2..4 => spoil_cell(random, &mut self.two.corrections, points),
            _ => spoil_cell(random, &mut self.two.heights, points),
        }
    }
}

/// Three grids of any kind.
pub fn any_three_grids(random: &mut Random) -> ThreeGrids {
    match random.below(100) {
        0..10 => table(random),
        10..20 => edge_of_the_checks(random),
        20..64 => smooth(random),
        64..65 => long(random),
        65..72 => over(random, coarse_steep),
        _ => over(random, any_two_grids),
    }
}

/// Three grids in which the way out goes several steps, more often than in others.
pub fn three_grids_to_move_in(random: &mut Random) -> ThreeGrids {
    match random.below(100) {
        0..45 => table(random),
        45..60 => over(random, coarse_steep),
        60..70 => over(random, two_grids_to_move_in),
        _ => any_three_grids(random),
    }
}

/// A dense grid of any kind inside the corrections of two grids, at times with a bad node.
fn over(random: &mut Random, two: impl Fn(&mut Random) -> TwoGrids) -> ThreeGrids {
    let two = two(random);
    let geometry = dense_geometry(random, &two.corrections.geometry);
    let mut dense = match random.below(100) {
        0..30 => corrections::agreeing(random, geometry, &two),
        30..40 => corrections::just_differing(random, geometry, &two),
        40..65 => corrections::shifted(random, geometry, &two),
        _ => corrections::unrelated(random, geometry),
    };
    if random.chance(12) {
        let node = dense.any_node(random);
        dense.spoil(random, node);
    }
    ThreeGrids { two, dense }
}

fn coarse_steep(random: &mut Random) -> TwoGrids {
    let grid = steep(random);
    with_heights_of_their_own(random, grid)
}

/// Grids that pass the check most often, or miss it by one border node.
fn smooth(random: &mut Random) -> ThreeGrids {
    let coarse = coarse_geometry(random);
    let dense = dense_geometry(random, &coarse);
    smooth_over(random, coarse, dense)
}

/// The same with all dense rows or columns that question 3 allows, over one coarse cell.
fn long(random: &mut Random) -> ThreeGrids {
    let (all, part) = (LINES_LIMIT - 1, random.pick(&[1, 500, 10_000]));
    let (few, spacing) = (random.between(2, 3), random.pick(&[1_000, 40_000]));
    let (spacings, lines, ratios) = if random.chance(50) {
        ([all * part, spacing], [2, few], [all, 1])
    } else {
        ([spacing, all * part], [few, 2], [1, all])
    };
    let coarse = geometry::placed(random, spacings, lines);
    let dense = dense_geometry_by(random, &coarse, ratios);
    smooth_over(random, coarse, dense)
}

fn smooth_over(random: &mut Random, coarse: Geometry, dense: Geometry) -> ThreeGrids {
    let nodes = values::nodes(random, &coarse, |random| match random.below(8) {
        0..2 => Manner::Constant,
        2..7 => Manner::Gentle,
        _ => Manner::Smooth,
    });
    let grid = Grid::of_all(coarse, nodes);
    let two = if random.chance(60) {
        on_one_geometry(grid)
    } else {
        with_heights_of_their_own(random, grid)
    };
    let dense = if random.chance(60) {
        corrections::agreeing(random, dense, &two)
    } else {
        corrections::just_differing(random, dense, &two)
    };
    ThreeGrids { two, dense }
}

fn on_one_geometry(grid: Grid<3>) -> TwoGrids {
    let (corrections, heights) = grid.split();
    TwoGrids {
        corrections,
        heights,
        kind: 0,
    }
}

/// Spacings of a few nd and random corrections of some nd on both grids: the way out jumps about,
/// into the dense grid and out of it, so that every order of stops, unfit cells and bounds comes
/// up.
fn table(random: &mut Random) -> ThreeGrids {
    let lines = [random.between(4, 20), random.between(3, 14)];
    let spacings = [random.pick(&[1, 1, 2, 3]), random.pick(&[1, 1, 2, 4])];
    let geometry = geometry::placed(random, spacings, lines);
    let most = [0, 1].map(|axis| (lines[axis] * spacings[axis] / 2).min(12));
    let reaches = [
        random.between(2, most[0]),
        random.between(0, most[1]),
        LIMITS[HEIGHT],
    ];
    let nodes = (0..geometry.nodes()).map(|_| scattered(random, reaches));
    let grid = Grid::of_all(geometry, nodes.collect());
    let two = with_heights_of_their_own(random, grid);
    let geometry = dense_geometry(random, &geometry);
    let nodes = (0..geometry.nodes()).map(|_| scattered(random, [reaches[0], reaches[1]]));
    let mut dense = Grid::of_corrections(geometry, nodes.collect());
    dense.spoil_some(random, &[0, 0, 0, 1, 3]);
    ThreeGrids { two, dense }
}

fn scattered<const VALUES: usize>(random: &mut Random, reaches: [i64; VALUES]) -> [i32; VALUES] {
    reaches.map(|reach| random.around_zero(reach) as i32)
}

/// Both grids along the same plane, as steep as question 12 allows; the dense one higher or lower
/// by some nd all over, as far as question 21 allows or further, or in one node steeper.
fn edge_of_the_checks(random: &mut Random) -> ThreeGrids {
    let most = random.pick(&[2_000, 60_000]);
    let steps = [random.between(1, most), random.between(1, most)];
    let ratios = [0, 1].map(|_| random.pick(&[1, 1, 2, 3, 5, 8]));
    let spacings = [0, 1].map(|axis| 200 * steps[axis] * ratios[axis]);
    let lines = [random.between(2, 5), random.between(2, 5)];
    let coarse = geometry::placed(random, spacings, lines);
    let plane = Plane {
        value: random.below(2) as usize,
        middle: random.pick(&[0, 7, -100_000, 8_000_000, -8_000_000]),
        signs: [random.sign(), random.sign()],
        corner: [coarse.south, coarse.west],
    };
    let nodes = plane.nodes(&coarse).into_iter();
    let nodes = nodes.map(|[one, other]| [one, other, 7]);
    let two = on_one_geometry(Grid::of_all(coarse, nodes.collect()));
    let geometry = dense_geometry_by(random, &coarse, ratios);
    let mut dense = Grid::of_corrections(geometry, plane.nodes(&geometry));
    let shifts = [0, 1].map(|_| random.pick(&[0, 0, 1, -1, 1, -1, 2, -2]));
    for node in &mut dense.nodes {
        *node = [node[0] + shifts[0], node[1] + shifts[1]];
    }
    if random.chance(30) {
        let node = dense.any_node(random);
        dense.nodes[node][plane.value] += random.sign() as i32;
    }
    ThreeGrids { two, dense }
}

/// One correction that changes by 1 for each 200 nd from a corner, whole at multiples of that; the
/// other constant.
struct Plane {
    value: usize,
    middle: i64,
    signs: [i64; 2],
    corner: [i64; 2],
}

impl Plane {
    fn nodes(&self, geometry: &Geometry) -> Vec<[i32; 2]> {
        let places = geometry.node_places();
        let nodes = places.map(|(row, column)| {
            let point = geometry.node_point(row, column);
            let north = point.latitude as i64 - self.corner[0];
            let east = point.longitude as i64 - self.corner[1];
            let slope = (self.signs[0] * north + self.signs[1] * east) / 200;
            let mut node = [7, -7];
            node[self.value] = (self.middle + slope) as i32;
            node
        });
        nodes.collect()
    }
}

/// A dense grid of 4,096 rows and columns: zero but for some nodes, of which one may be unfit.
pub fn largest(random: &mut Random) -> ThreeGrids {
    let spacings = [
        5 * random.between(1, 20_000_000),
        5 * random.between(1, 20_000_000),
    ];
    let coarse = geometry::placed(random, spacings, [820, 820]);
    let nodes = vec![[0; 3]; coarse.nodes() as usize];
    let two = on_one_geometry(Grid::of_all(coarse, nodes));
    let geometry = Geometry {
        latitude_spacing: coarse.latitude_spacing / 5,
        longitude_spacing: coarse.longitude_spacing / 5,
        rows: 4_096,
        columns: 4_096,
        ..coarse
    };
    let mut dense = Grid::of_corrections(geometry, vec![[0; 2]; geometry.nodes() as usize]);
    for _ in 0..2_000 {
        let node = dense.any_node(random);
        dense.nodes[node] = scattered(random, [10_000, 10_000]);
    }
    if random.chance(30) {
        let last = dense.nodes.len() - 1;
        dense.spoil(random, last);
    }
    ThreeGrids { two, dense }
}
