//! Dense grids over the middle of the corrections.

use super::{Geometry, Grid};

/// So many parts each spacing is divided into.
const RATIO: u32 = 5;

/// The most cells along an axis: question 3 allows 4,096 rows and columns.
const MOST_CELLS: u32 = 4_095;

/// The cells of the corrections that a dense grid covers: from this row and column on, so many.
struct Middle {
    first: [u32; 2],
    cells: [u32; 2],
}

impl Middle {
    /// Half of the cells along each axis, or as many as can be divided.
    fn of(corrections: &Geometry) -> Middle {
        let all = [corrections.rows - 1, corrections.columns - 1];
        let cells = all.map(|it| (it / 2).clamp(1, MOST_CELLS / RATIO));
        Middle {
            first: [0, 1].map(|axis| (all[axis] - cells[axis]) / 2),
            cells,
        }
    }

    fn geometry(&self, corrections: &Geometry) -> Geometry {
        let [row, column] = self.first.map(i64::from);
        let [rows, columns] = self.cells.map(|it| RATIO * it + 1);
        Geometry {
            south: corrections.south + row * i64::from(corrections.latitude_spacing),
            west: corrections.west + column * i64::from(corrections.longitude_spacing),
            latitude_spacing: corrections.latitude_spacing / RATIO,
            longitude_spacing: corrections.longitude_spacing / RATIO,
            rows,
            columns,
        }
    }

    /// The rounded correction of the coarse grid at a dense node.
    fn rounded(&self, coarse: &Grid, row: u32, column: u32) -> [i32; 2] {
        let cell = |axis: usize, line: u32| (line / RATIO).min(self.cells[axis] - 1);
        let [at_row, at_column] = [cell(0, row), cell(1, column)];
        let (north, east) = (row - RATIO * at_row, column - RATIO * at_column);
        let (south, west) = (RATIO - north, RATIO - east);
        let node = |up: u32, right: u32| {
            let [row, column] = [
                self.first[0] + at_row + up,
                self.first[1] + at_column + right,
            ];
            coarse.correction(row, column)
        };
        let corners = [
            (node(0, 0), south * west),
            (node(0, 1), south * east),
            (node(1, 0), north * west),
            (node(1, 1), north * east),
        ];
        [0, 1].map(|value| {
            let weighed =
                |(node, weight): &([i32; 2], u32)| i64::from(node[value]) * i64::from(*weight);
            let sum: i64 = corners.iter().map(weighed).sum();
            let area = i64::from(RATIO * RATIO);
            (2 * sum + area).div_euclid(2 * area) as i32
        })
    }
}

/// The geometry of a dense grid over the middle of the corrections.
pub fn middle_of(corrections: &Geometry) -> Geometry {
    Middle::of(corrections).geometry(corrections)
}

/// The grid of edition 2 with a dense one over its middle: the rounded corrections of the coarse
/// grid and, two nodes from the border and further, what is added to them.
pub fn over_the_middle(coarse: Grid, added: impl Fn(u32, u32) -> [i32; 2]) -> Grid {
    let middle = Middle::of(&coarse.corrections);
    let dense = middle.geometry(&coarse.corrections);
    let is_inner = |line: u32, lines: u32| 2 <= line && line + 2 < lines;
    let nodes: Vec<[i32; 2]> = dense
        .places()
        .map(|(row, column)| {
            let [latitude, longitude] = middle.rounded(&coarse, row, column);
            if is_inner(row, dense.rows) && is_inner(column, dense.columns) {
                let [north, east] = added(row, column);
                [latitude + north, longitude + east]
            } else {
                [latitude, longitude]
            }
        })
        .collect();
    coarse.with_dense(dense, |row, column| nodes[dense.index(row, column)])
}
