//! Made-up grids: geometry with nodes, as they come or for a purpose.

use super::{geometry, values};
use crate::random::Random;
use reference::{write_image, Geometry, Trailer};
use values::{Manner, HEIGHT, LIMITS};

/// A grid before it is written: nodes of so many values, each with its limit of question 9.
pub struct Grid<const VALUES: usize> {
    pub geometry: Geometry,
    pub nodes: Vec<[i32; VALUES]>,
    limits: [i64; VALUES],
}

impl<const VALUES: usize> Grid<VALUES> {
    /// The node's place in the list of nodes.
    pub fn index(&self, row: i64, column: i64) -> usize {
        (row * i64::from(self.geometry.columns) + column) as usize
    }

    /// The place of some node in the list of nodes.
    pub fn any_node(&self, random: &mut Random) -> usize {
        random.below(self.nodes.len() as u64) as usize
    }

    /// Puts values past their limits into some nodes, one of these numbers of them.
    pub fn spoil_some(&mut self, random: &mut Random, numbers: &[usize]) {
        for _ in 0..random.pick(numbers) {
            let node = self.any_node(random);
            self.spoil(random, node);
        }
    }

    /// Puts a value past its limit into one node.
    pub fn spoil(&mut self, random: &mut Random, node: usize) {
        let value = random.below(VALUES as u64) as usize;
        let past = self.limits[value] + 1;
        self.nodes[node][value] = match random.below(10) {
            0 => i32::MIN,
            1 => i32::MAX,
            _ => (random.sign() * past) as i32,
        };
    }
}

impl Grid<3> {
    /// A grid of corrections and heights.
    pub fn of_all(geometry: Geometry, nodes: Vec<[i32; 3]>) -> Grid<3> {
        Grid {
            geometry,
            nodes,
            limits: LIMITS,
        }
    }

    /// The grid as an image of edition 1.
    pub fn image(&self) -> Vec<u8> {
        write_image(&self.nodes, &Trailer::over(self.geometry))
    }

    /// The corrections and the heights as grids of their own.
    pub fn split(self) -> (Grid<2>, Grid<1>) {
        let corrections = self.nodes.iter().map(|node| [node[0], node[1]]).collect();
        let heights = self.nodes.iter().map(|node| node[HEIGHT]).collect();
        (
            Grid::of_corrections(self.geometry, corrections),
            Grid::of_heights(self.geometry, heights),
        )
    }
}

impl Grid<2> {
    /// A grid of corrections.
    pub fn of_corrections(geometry: Geometry, nodes: Vec<[i32; 2]>) -> Grid<2> {
        Grid {
            geometry,
            nodes,
            limits: [LIMITS[0], LIMITS[1]],
        }
    }
}

impl Grid<1> {
    /// A grid of heights.
    pub fn of_heights(geometry: Geometry, heights: Vec<i32>) -> Grid<1> {
        Grid {
            geometry,
            nodes: heights.into_iter().map(|height| [height]).collect(),
            limits: [LIMITS[HEIGHT]],
        }
    }
}

/// A grid of any kind.
pub fn any_grid(random: &mut Random) -> Grid<3> {
    match random.below(100) {
        0..15 => table(random),
        15..23 => edge_of_the_check(random),
        23..33 => steep(random),
        _ => mixed(random),
    }
}

/// A grid in which the way out goes several steps, more often than in others.
pub fn grid_to_move_in(random: &mut Random) -> Grid<3> {
    match random.below(100) {
        0..40 => table(random),
        40..60 => steep(random),
        _ => any_grid(random),
    }
}

/// Any geometry; all three values smooth, or each in a manner of its own; at times a bad node.
fn mixed(random: &mut Random) -> Grid<3> {
    let geometry = geometry::any_geometry(random);
    let smooth = random.chance(50);
    let nodes = values::nodes(random, &geometry, |random| {
        if smooth {
            random.pick(&[Manner::Constant, Manner::Smooth, Manner::Smooth])
        } else {
            values::any_manner(random)
        }
    });
    let mut grid = Grid::of_all(geometry, nodes);
    if random.chance(12) {
        let node = grid.any_node(random);
        grid.spoil(random, node);
    }
    grid
}

/// Spacings 1 and small random corrections: the way out jumps from node to node as in a table,
/// so that every order of stops, unfit cells and bounds comes up.
fn table(random: &mut Random) -> Grid<3> {
    let lines = [random.between(3, 14), random.between(3, 14)];
    let geometry = geometry::placed(random, [1, 1], lines);
    let reaches = [random.between(1, 4), random.between(0, 3), LIMITS[HEIGHT]];
    let nodes = (0..lines[0] * lines[1])
        .map(|_| reaches.map(|reach| random.around_zero(reach) as i32))
        .collect();
    let mut grid = Grid::of_all(geometry, nodes);
    grid.spoil_some(random, &[0, 0, 1, 3]);
    grid
}

/// Steady slopes of a few hundredths to more than one, and room to move: the way out needs
/// several evaluations, or does not stop.
pub fn steep(random: &mut Random) -> Grid<3> {
    let spacing = 1 << random.between(3, 26);
    let lines = [random.between(3, 8), random.between(3, 8)];
    let geometry = geometry::placed(random, [spacing, spacing], lines);
    let nodes = values::nodes(random, &geometry, |_| Manner::Steep);
    Grid::of_all(geometry, nodes)
}

/// One value at the edge of the check, the others constant.
fn edge_of_the_check(random: &mut Random) -> Grid<3> {
    let (geometry, plane) = plane_at_the_edge_of_the_check(random);
    let value = random.below(3) as usize;
    let nodes = plane
        .into_iter()
        .map(|of_plane| {
            let mut node = [7, -7, 7];
            node[value] = of_plane;
            node
        })
        .collect();
    Grid::of_all(geometry, nodes)
}

/// A value whose steps are exactly as large as question 12 allows, or one spacing or step beyond
/// that.
pub fn plane_at_the_edge_of_the_check(random: &mut Random) -> (Geometry, Vec<i32>) {
    let steps = [random.between(1, 100_000), random.between(1, 100_000)];
    let beyond = random.below(6);
    let spacings = [
        200 * steps[0] - i64::from(beyond == 1),
        200 * steps[1] - i64::from(beyond == 2),
    ];
    let lines = [random.between(2, 6), random.between(2, 6)];
    let geometry = geometry::placed(random, spacings, lines);
    let signed_steps = [
        random.sign() * (steps[0] + i64::from(beyond == 3)),
        random.sign() * (steps[1] + i64::from(beyond == 4)),
    ];
    let places = (0..lines[0]).flat_map(|row| (0..lines[1]).map(move |column| (row, column)));
    let plane = places
        .map(|(row, column)| (row * signed_steps[0] + column * signed_steps[1]) as i32)
        .collect();
    (geometry, plane)
}

/// 4,096 rows and columns: zero but for some nodes, of which a few may be unfit.
pub fn largest_grid(random: &mut Random) -> Grid<3> {
    let spacings = [random.between(1, 43_000_000), random.between(1, 87_000_000)];
    let geometry = geometry::placed(random, spacings, [4_096, 4_096]);
    let mut nodes = vec![[0; 3]; 4_096 * 4_096];
    for _ in 0..2_000 {
        let node = random.below(nodes.len() as u64) as usize;
        nodes[node] = LIMITS.map(|limit| random.around_zero(limit / 1_000) as i32);
    }
    let mut grid = Grid::of_all(geometry, nodes);
    if random.chance(30) {
        let last = grid.nodes.len() - 1;
        grid.spoil(random, last);
    }
    grid
}
