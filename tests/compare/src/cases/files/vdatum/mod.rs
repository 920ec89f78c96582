//! A VDatum file before it is written: its header, its nodes, and how both are made.

mod header;

use super::made::{size, Made};
use super::values::{fit_values, Limits, HEIGHTS};
use crate::cases::geometry::{geometry_with, LINES_LIMIT};
use crate::random::Random;
use crate::{File, Format};
use reference::FileHeader;

/// Header and nodes, their floats by their bits.
pub struct Vdatum {
    header: FileHeader,
    nodes: Vec<u32>,
}

/// So many nodes a broken header may ask for and get.
const MOST_NODES: i64 = 40_000;

/// A file that is fit but for angles on the edge of a limit, which may be beyond it.
pub fn fit(random: &mut Random) -> Vdatum {
    let (rows, columns) = size(random);
    let geometry = geometry_with(random, rows, columns);
    let header = header::over(random, &geometry);
    let nodes = fit_values(random, HEIGHTS, rows * columns);
    Vdatum { header, nodes }
}

/// A fit file with as many rows and columns as there may be.
pub fn largest(random: &mut Random) -> Vdatum {
    let geometry = geometry_with(random, LINES_LIMIT, LINES_LIMIT);
    Vdatum {
        header: header::of_whole_nd(&geometry),
        nodes: fit_values(random, HEIGHTS, LINES_LIMIT * LINES_LIMIT),
    }
}

impl Made for Vdatum {
    const LIMITS: Limits = HEIGHTS;

    fn exact(&self) -> File {
        let mut bytes = self.header.write();
        bytes.extend(self.nodes.iter().flat_map(|bits| bits.to_be_bytes()));
        File {
            format: Format::Vdatum,
            bytes,
            buffer_lengths: [4 * self.nodes.len(), 0],
        }
    }

    fn node_count(&self) -> usize {
        self.nodes.len()
    }

    fn value(&mut self, _: &mut Random, node: usize) -> &mut u32 {
        &mut self.nodes[node]
    }

    fn break_one(&mut self, random: &mut Random) {
        header::break_number(random, &mut self.header);
    }

    /// The file then has as many nodes as the header asks for; if these are too many, as before or
    /// none.
    fn suit_nodes(&mut self, random: &mut Random) {
        let asked = i64::from(self.header.rows) * i64::from(self.header.columns);
        if (0..=MOST_NODES).contains(&asked) {
            let last = self.nodes[self.nodes.len() - 1];
            self.nodes.resize(asked as usize, last);
        } else if random.chance(50) {
            self.nodes.clear();
        }
    }
}
