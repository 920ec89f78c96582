//! A small image of edition 2, and variants of it.

use crate::common::{g_node, G_GEOMETRY, SOUTH};
use crate::heights::image_of_kind;
pub use crate::heights::{sloping_heights, HEIGHT_GEOMETRY};
use reference::{Geometry, TwoGridTrailer};

/// A height grid of the same size that shares no point with G.
pub const HEIGHTS_ELSEWHERE: Geometry = Geometry {
    south: SOUTH + 2_001,
    ..HEIGHT_GEOMETRY
};

/// G's corrections.
pub fn g_corrections(row: i32, column: i32) -> [i32; 2] {
    let [latitude, longitude, _] = g_node(row, column);
    [latitude, longitude]
}

/// The right trailer of the small image.
pub fn trailer() -> TwoGridTrailer {
    TwoGridTrailer::over(G_GEOMETRY, HEIGHT_GEOMETRY)
}

/// The image over two geometries, the nodes of both given by row and column.
pub fn image_over(
    geometries: [Geometry; 2],
    correction: impl Fn(i32, i32) -> [i32; 2],
    height: impl Fn(i32, i32) -> [i32; 1],
) -> Vec<u8> {
    image_of_kind(0, geometries, correction, height)
}

/// The small image with other nodes.
pub fn image_of(
    correction: impl Fn(i32, i32) -> [i32; 2],
    height: impl Fn(i32, i32) -> [i32; 1],
) -> Vec<u8> {
    image_over([G_GEOMETRY, HEIGHT_GEOMETRY], correction, height)
}

/// The small image: G's corrections, with sloping heights on the height grid.
pub fn small_image() -> Vec<u8> {
    image_of(g_corrections, sloping_heights)
}
