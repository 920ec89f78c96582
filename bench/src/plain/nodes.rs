//! The nodes of one grid, its cells and their bilinear values.

use super::axis::Axis;
use super::Number;
use std::array;

/// A point in nd.
#[derive(Clone, Copy)]
pub struct Point {
    pub latitude: i64,
    pub longitude: i64,
}

/// A grid whose nodes have so many values; the height is the one with this place, and there is none
/// where they are fewer.
pub struct Nodes<'a, const VALUES: usize, const HEIGHT: usize = 2> {
    pub nodes: &'a [u8],
    pub latitude: Axis,
    pub longitude: Axis,
}

/// Heights alone.
pub type Heights<'a> = Nodes<'a, 1, 0>;

/// Where a point lies: the south-west node of its cell, and its parts of the cell.
pub struct Place {
    row: usize,
    column: usize,
    u: i64,
    v: i64,
}

/// A point's cell: each value's four corners, south row first, the corners' weights, and the sum
/// of the weights.
pub struct Cell<const VALUES: usize> {
    corners: [[i32; 4]; VALUES],
    weights: [i64; 4],
    area: i64,
}

impl<const VALUES: usize, const HEIGHT: usize> Nodes<'_, VALUES, HEIGHT> {
    pub const NODE_BYTES: usize = 4 * VALUES;

    pub fn holds(&self, p: Point) -> bool {
        self.latitude.holds(p.latitude) && self.longitude.holds(p.longitude)
    }

    /// Is the point in the bounds? Else this number.
    pub fn judge_bounds(&self, p: Point, number: Number) -> Result<(), Number> {
        if self.holds(p) {
            Ok(())
        } else {
            Err(number)
        }
    }

    /// Where a point in the bounds lies.
    #[inline]
    pub fn place(&self, p: Point) -> Place {
        let (row, u) = self.latitude.place(p.latitude);
        let (column, v) = self.longitude.place(p.longitude);
        Place { row, column, u, v }
    }

    /// The cell of a point in the bounds, after question 9.
    #[inline]
    pub fn cell(&self, p: Point) -> Result<Cell<VALUES>, Number> {
        self.cell_at(&self.place(p))
    }

    /// The cell of a place, after question 9. Always in its caller, so that two grids with the same
    /// axes share the weights.
    #[inline(always)]
    pub fn cell_at(&self, place: &Place) -> Result<Cell<VALUES>, Number> {
        let &Place { row, column, u, v } = place;
        let bytes = Self::NODE_BYTES;
        let first = bytes * (row * self.longitude.count + column);
        let south = &self.nodes[first..][..2 * bytes];
        let north = &self.nodes[first + bytes * self.longitude.count..][..2 * bytes];
        let corners: [[i32; 4]; VALUES] = array::from_fn(|value| {
            let (west, east) = (4 * value, 4 * value + bytes);
            let [sw, se] = [number_at(south, west), number_at(south, east)];
            let [nw, ne] = [number_at(north, west), number_at(north, east)];
            [sw, se, nw, ne]
        });
        for (value, corners) in corners.iter().enumerate() {
            if !corners.iter().all(|corner| Self::fits(value, *corner)) {
                return Err(9);
            }
        }
        let (p, q) = (self.latitude.spacing, self.longitude.spacing);
        let weights = [(p - u) * (q - v), (p - u) * v, u * (q - v), u * v];
        Ok(Cell {
            corners,
            weights,
            area: p * q,
        })
    }

    /// Whether a number is further than 1 from the exact bilinear value at a point in the bounds.
    pub fn differs(&self, p: Point, value: usize, number: i32) -> bool {
        let Place { row, column, u, v } = self.place(p);
        let (p, q) = (self.latitude.spacing, self.longitude.spacing);
        let weighed = |up: usize, right: usize, weight: i64| {
            let corner = self.values_at(row + up, column + right)[value];
            i128::from(corner) * i128::from(weight)
        };
        let south = weighed(0, 0, (p - u) * (q - v)) + weighed(0, 1, (p - u) * v);
        let north = weighed(1, 0, u * (q - v)) + weighed(1, 1, u * v);
        let area = i128::from(p * q);
        (i128::from(number) * area - south - north).abs() > area
    }

    /// The rows and columns of the nodes of the first and last rows and columns.
    pub fn border(&self) -> impl Iterator<Item = (usize, usize)> {
        let (rows, columns) = (self.latitude.count, self.longitude.count);
        let of_rows = [0, rows - 1].into_iter();
        let of_rows = of_rows.flat_map(move |row| (0..columns).map(move |column| (row, column)));
        let of_columns =
            (0..rows).flat_map(move |row| [0, columns - 1].map(|column| (row, column)));
        of_rows.chain(of_columns)
    }

    /// The values of the node of a row and a column.
    pub fn values_at(&self, row: usize, column: usize) -> [i32; VALUES] {
        let index = row * self.longitude.count + column;
        Self::values(&self.nodes[Self::NODE_BYTES * index..])
    }

    /// The values of a node.
    pub fn values(node: &[u8]) -> [i32; VALUES] {
        array::from_fn(|value| number_at(node, 4 * value))
    }

    /// Question 9 of a node's value.
    pub fn fits(value: usize, number: i32) -> bool {
        let is_height = value == HEIGHT;
        number.unsigned_abs() <= if is_height { 1_000_000 } else { 10_000_000 }
    }
}

impl<const VALUES: usize> Cell<VALUES> {
    /// One bilinear value: the exact value plus one half, rounded down.
    #[inline]
    pub fn value(&self, value: usize) -> i64 {
        let mut sum = 0;
        for (corner, weight) in self.corners[value].iter().zip(self.weights) {
            sum += i128::from(*corner) * i128::from(weight);
        }
        let (dividend, divisor) = (2 * sum + i128::from(self.area), 2 * i128::from(self.area));
        let quotient = dividend / divisor;
        (quotient - i128::from(quotient * divisor > dividend)) as i64
    }
}

fn number_at(bytes: &[u8], at: usize) -> i32 {
    i32::from_le_bytes(bytes[at..at + 4].try_into().expect("four bytes"))
}
