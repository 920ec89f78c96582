//! A small image of kind 2, and variants of it. Points are offsets from G's south-west corner.

use crate::common::G_GEOMETRY;
pub use crate::heights::{image_of_kind, sloping_heights, HEIGHT_GEOMETRY as HEIGHTS};
use reference::{Answer, Geometry, Number, Point};

/// The correction grid: 5 rows and columns from (0, 0) to (4000, 4000).
pub const CORRECTIONS: Geometry = Geometry {
    rows: 5,
    columns: 5,
    ..G_GEOMETRY
};

/// The latitude correction 5 and the longitude correction −4 times the node's distance from the
/// border: the steepest latitude corrections that question 12 lets pass.
pub fn tent(row: i32, column: i32) -> [i32; 2] {
    let from_border = row.min(4 - row).min(column).min(4 - column);
    [5 * from_border, -4 * from_border]
}

/// The small image with other nodes.
pub fn image_of(
    correction: impl Fn(i32, i32) -> [i32; 2],
    height: impl Fn(i32, i32) -> [i32; 1],
) -> Vec<u8> {
    image_of_kind(2, [CORRECTIONS, HEIGHTS], correction, height)
}

pub fn small_image() -> Vec<u8> {
    image_of(tent, sloping_heights)
}

/// An answer without a height.
pub fn without_height(point: Point, count: i128) -> Result<Answer, Number> {
    Ok(Answer {
        point,
        height: None,
        count,
    })
}
