//! The converters between kinds 0 and 3 of edition 2, by the library and by the plain implementation.

use crate::grid::Grid;
use crate::{library, plain};

/// A converter of an image, that writes to the buffer and gives its number.
pub type Converter = fn(&[u8], &mut [u8]) -> i64;

/// What is converted to what.
#[derive(Clone, Copy, Debug, PartialEq, Eq)]
pub enum Direction {
    /// Kind 0 to kind 3.
    PlanesFromNodes,
    /// Kind 3 to kind 0.
    NodesFromPlanes,
}

impl Direction {
    pub const ALL: [Direction; 2] = [Direction::PlanesFromNodes, Direction::NodesFromPlanes];

    pub fn words(self) -> &'static str {
        match self {
            Direction::PlanesFromNodes => "kind 0 to kind 3",
            Direction::NodesFromPlanes => "kind 3 to kind 0",
        }
    }

    /// The library's converter and the plain implementation's.
    pub fn converters(self) -> [Converter; 2] {
        match self {
            Direction::PlanesFromNodes => [library::planes_from_nodes, plain::planes_from_nodes],
            Direction::NodesFromPlanes => [library::nodes_from_planes, plain::nodes_from_planes],
        }
    }

    /// The image of a grid of kind 3 that is converted, and the one that it becomes.
    pub fn images(self, grid: &Grid) -> [Vec<u8>; 2] {
        let (nodes, planes) = (grid.image_of_kind_0(), grid.image.clone());
        match self {
            Direction::PlanesFromNodes => [nodes, planes],
            Direction::NodesFromPlanes => [planes, nodes],
        }
    }
}
