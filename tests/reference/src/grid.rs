//! A grid: its nodes, question 9, and the bilinear value.

use crate::numbers::i32_at;
use crate::{ask, within, Fraction, Geometry, Number, Point};

/// "Corrections within 10,000,000".
pub(crate) const CORRECTION_LIMIT: i128 = 10_000_000;
/// "and height within 1,000,000 of zero".
pub(crate) const HEIGHT_LIMIT: i128 = 1_000_000;

/// How the values of a grid stand after each other.
#[derive(Clone, Copy, Debug, PartialEq, Eq)]
pub enum Arrangement {
    /// All values of a node, then those of the next one.
    Nodes,
    /// "All latitude corrections, then all longitude corrections …, in the same node order."
    Planes,
}

/// A grid whose nodes have so many values, of 4 bytes each (i32).
#[derive(Clone, Copy, Debug)]
pub struct Grid<'a, const VALUES: usize> {
    pub geometry: Geometry,
    /// The bytes from the first value on.
    pub(crate) values: &'a [u8],
    pub(crate) arrangement: Arrangement,
    /// How far from zero question 9 lets each value be.
    pub limits: [i128; VALUES],
}

impl<const VALUES: usize> Grid<'_, VALUES> {
    /// "Row 0 is the southern one, and a row runs from west to east."
    pub fn node(&self, row: i128, column: i128) -> [i32; VALUES] {
        let index = (row * i128::from(self.geometry.columns) + column) as usize;
        let nodes = self.geometry.nodes() as usize;
        std::array::from_fn(|value| {
            let values_before = match self.arrangement {
                Arrangement::Nodes => VALUES * index + value,
                Arrangement::Planes => nodes * value + index,
            };
            i32_at(self.values, 4 * values_before)
        })
    }

    /// All nodes, the southern row first and each row from west to east.
    pub fn all_nodes(&self) -> Vec<[i32; VALUES]> {
        let places = self.geometry.node_places();
        places.map(|(row, column)| self.node(row, column)).collect()
    }

    /// Is each value of the node within its limit of zero?
    pub fn node_fits(&self, node: &[i32; VALUES]) -> bool {
        (0..VALUES).all(|value| within(node[value].into(), self.limits[value]))
    }

    /// "The four corner values form a two by two square, south row first."
    pub fn corners(&self, row: i128, column: i128) -> [[[i32; VALUES]; 2]; 2] {
        [
            [self.node(row, column), self.node(row, column + 1)],
            [self.node(row + 1, column), self.node(row + 1, column + 1)],
        ]
    }

    /// The exact values at a point in the bounds: 9 if its cell has an unfit node.
    pub fn exact_values(&self, point: Point) -> Result<[Fraction; VALUES], Number> {
        let (latitude, longitude) = self.geometry.places(point);
        let corners = self.corners(latitude.cell, longitude.cell);
        // "9. In each cell used, do all four nodes have corrections within 10,000,000 and height
        // within 1,000,000 of zero? Else 9."
        let all_fit = corners.iter().flatten().all(|node| self.node_fits(node));
        ask(all_fit, 9)?;
        // "Let u and v be the point's distance from the cell's south and west side, and P and Q
        // the latitude and longitude spacing."
        let (u, v) = (latitude.part, longitude.part);
        let (p, q) = self.geometry.spacings();
        // "Weights are (P − u)(Q − v) south-west, (P − u)v south-east, u(Q − v) north-west, uv
        // north-east."
        let weights = [[(p - u) * (q - v), (p - u) * v], [u * (q - v), u * v]];
        Ok(std::array::from_fn(|value| {
            // "The exact value is the sum of corner times weight, divided by P × Q".
            let sum = (0..2)
                .flat_map(|side| (0..2).map(move |end| (side, end)))
                .map(|(side, end)| i128::from(corners[side][end][value]) * weights[side][end])
                .sum();
            Fraction::new(sum, p * q)
        }))
    }
}
