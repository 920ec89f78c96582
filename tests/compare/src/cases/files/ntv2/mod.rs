//! An NTv2 file before it is written: its axes, its records, its nodes, and how all are made.

mod axes;
mod names;
mod records;

use super::made::{size, Made};
use super::values::{fit_values, Limits, SHIFTS};
use crate::cases::axis::Axis;
use crate::cases::geometry::{geometry_with, LINES_LIMIT};
use crate::cases::three_grids::placing::{coarse_geometry, dense_geometry};
use crate::random::Random;
use crate::{File, Format};
use reference::{FileGrid, Geometry, Ntv2File, Record, Records, ShiftNode};

/// Each grid's axes are what its header says unless this was broken by itself.
pub struct Ntv2 {
    axes: Vec<[Axis; 2]>,
    file: Ntv2File,
}

/// The places of the axes.
const LATITUDE: usize = 0;
const LONGITUDE: usize = 1;

/// A fit file, with a subgrid as often as without. The subgrid lies in its parent as a dense grid
/// must, or anywhere.
pub fn fit(random: &mut Random) -> Ntv2 {
    match random.below(100) {
        0..50 => over_any(random, 1),
        50..80 => over_any(random, 2),
        _ => {
            let coarse = coarse_geometry(random);
            let dense = dense_geometry(random, &coarse);
            let axes = [coarse, dense].map(|it| [Axis::latitude(&it), Axis::longitude(&it)]);
            over(random, axes.to_vec())
        }
    }
}

/// A fit file whose first grid has as many rows as there may be and 2^20 nodes, its subgrid as many
/// columns; with as many of both it would have 268 MB and more.
pub fn large(random: &mut Random) -> Ntv2 {
    let coarse = geometry_with(random, LINES_LIMIT, 256);
    let dense = geometry_with(random, 16, LINES_LIMIT);
    let axes = [coarse, dense].map(|it| axes_with_halves(random, &it));
    over(random, axes.to_vec())
}

/// A fit file with so many grids, each of any size at any place.
fn over_any(random: &mut Random, grids: usize) -> Ntv2 {
    let axes = (0..grids).map(|_| {
        let (rows, columns) = size(random);
        let geometry = geometry_with(random, rows, columns);
        axes_with_halves(random, &geometry)
    });
    let axes = axes.collect();
    over(random, axes)
}

fn axes_with_halves(random: &mut Random, geometry: &Geometry) -> [Axis; 2] {
    let axes = [Axis::latitude(geometry), Axis::longitude(geometry)];
    axes.map(|axis| axes::with_halves(random, axis))
}

/// A fit file over the axes of its grids.
fn over(random: &mut Random, axes: Vec<[Axis; 2]>) -> Ntv2 {
    let overview = records::overview(random, axes.len() as i32);
    let grids = axes.iter().map(|[latitude, longitude]| FileGrid {
        header: records::header(random),
        nodes: fit_nodes(random, latitude.lines * longitude.lines),
    });
    let grids = grids.collect();
    let end = records::end(random);
    let mut made = Ntv2 {
        axes,
        file: Ntv2File {
            overview,
            grids,
            end,
        },
    };
    names::write(random, &mut made.file.grids);
    for grid in 0..made.axes.len() {
        made.write_axis(random, grid, LATITUDE);
        made.write_axis(random, grid, LONGITUDE);
    }
    made
}

/// So many nodes with any accuracies.
fn fit_nodes(random: &mut Random, count: i64) -> Vec<ShiftNode> {
    let shifts = fit_values(random, SHIFTS, 2 * count);
    let nodes = shifts.chunks_exact(2).map(|shifts| {
        let accuracies = random.draw();
        let (one, other) = (accuracies as u32, (accuracies >> 32) as u32);
        [shifts[0], shifts[1], one, other]
    });
    nodes.collect()
}

impl Ntv2 {
    /// Writes an axis to a grid's header, with as many nodes as both axes ask for.
    fn write_axis(&mut self, random: &mut Random, grid: usize, which: usize) {
        let (axes, grid) = (&self.axes[grid], &mut self.file.grids[grid]);
        axes::write(random, &mut grid.header, which, &axes[which]);
        let [rows, columns] = axes.map(|axis| axis.lines);
        let last = grid.nodes[grid.nodes.len() - 1];
        grid.nodes.resize((rows * columns) as usize, last);
        grid.header.set_count("GS_COUNT", grid.nodes.len() as i32);
    }

    /// Changes an axis of a grid, with as many nodes as it then asks for.
    fn break_axis(&mut self, random: &mut Random, grid: usize) {
        let which = random.pick(&[LATITUDE, LONGITUDE]);
        let broken = axes::broken(random, self.axes[grid][which]);
        if broken.lines > LINES_LIMIT / 2 {
            self.axes[grid][1 - which].lines = 2;
            self.write_axis(random, grid, 1 - which);
        }
        self.axes[grid][which] = broken;
        self.write_axis(random, grid, which);
    }

    /// Changes some count: of the overview, or of a grid's nodes.
    fn break_count(&mut self, random: &mut Random, grid: usize) {
        if random.chance(40) {
            return records::break_number_of_grids(random, &mut self.file.overview);
        }
        let label = random.pick(&["NUM_OREC", "NUM_SREC", "NUM_FILE", "GS_COUNT"]);
        let records = match label {
            "GS_COUNT" => &mut self.file.grids[grid].header,
            _ => &mut self.file.overview,
        };
        records::break_count(random, records, label);
    }

    /// Breaks the label of some record.
    fn break_label(&mut self, random: &mut Random) {
        let file = &mut self.file;
        let headers = file.grids.iter_mut().map(|it| &mut it.header);
        let all = [&mut file.overview].into_iter().chain(headers);
        let records = all.flat_map(|it: &mut Records| it.records.iter_mut());
        let mut records: Vec<&mut Record> = records.chain([&mut file.end]).collect();
        let place = random.below(records.len() as u64) as usize;
        records::break_label(random, records[place]);
    }
}

impl Made for Ntv2 {
    const LIMITS: Limits = SHIFTS;

    fn exact(&self) -> File {
        let grids = &self.file.grids;
        File {
            format: Format::Ntv2,
            bytes: self.file.write(),
            buffer_lengths: [0, 1].map(|it| grids.get(it).map_or(0, |it| 8 * it.nodes.len())),
        }
    }

    fn node_count(&self) -> usize {
        self.file.grids.iter().map(|it| it.nodes.len()).sum()
    }

    fn value(&mut self, random: &mut Random, node: usize) -> &mut u32 {
        let grids = self.file.grids.iter_mut();
        let mut nodes = grids.flat_map(|it| it.nodes.iter_mut());
        let node = nodes.nth(node).expect("a node of the file");
        &mut node[random.pick(&[0, 1])]
    }

    fn break_one(&mut self, random: &mut Random) {
        let grid = random.below(self.axes.len() as u64) as usize;
        let (axes, header) = (&self.axes[grid], &mut self.file.grids[grid].header);
        match random.below(100) {
            0..25 => self.break_label(random),
            25..28 => records::break_type(random, &mut self.file.overview),
            28..36 => names::break_parent(random, &mut self.file.grids),
            36..46 => self.break_count(random, grid),
            46..72 => axes::break_float(random, header, axes),
            72..82 => axes::break_difference(random, header, axes),
            _ => self.break_axis(random, grid),
        }
    }

    /// The nodes are those of the axes already.
    fn suit_nodes(&mut self, _: &mut Random) {}
}
