//! The height grid of the small images of edition 2, and images over two geometries. Points are
//! offsets from G's south-west corner.

use crate::common::{nodes_over, SOUTH, WEST};
use reference::{write_two_grids, Geometry, TwoGridTrailer};

/// The height grid: 4 rows and 3 columns from (−400, 100) to (1700, 1900). So some of G's points are
/// off it to the north, the west and the east, and it goes past G's southern bound.
pub const HEIGHT_GEOMETRY: Geometry = Geometry {
    south: SOUTH - 400,
    west: WEST + 100,
    latitude_spacing: 700,
    longitude_spacing: 900,
    rows: 4,
    columns: 3,
};

/// Heights 430,000 + 3 × row + 4 × column.
pub fn sloping_heights(row: i32, column: i32) -> [i32; 1] {
    [430_000 + 3 * row + 4 * column]
}

/// The image of a kind over two geometries, the nodes of both given by row and column.
pub fn image_of_kind(
    kind: u32,
    [corrections, heights]: [Geometry; 2],
    correction: impl Fn(i32, i32) -> [i32; 2],
    height: impl Fn(i32, i32) -> [i32; 1],
) -> Vec<u8> {
    write_two_grids(
        &nodes_over(&corrections, correction),
        &nodes_over(&heights, height),
        &TwoGridTrailer {
            kind,
            ..TwoGridTrailer::over(corrections, heights)
        },
    )
}
