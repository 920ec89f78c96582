//! Small images of kinds 0 to 3 over the same grids. Points are offsets from G's south-west
//! corner.

use crate::common::{nodes_over, G_GEOMETRY};
use crate::heights::{image_of_kind, sloping_heights, HEIGHT_GEOMETRY};
use reference::{write_dense, write_planes, DenseTrailer, Geometry, TwoGridTrailer};

/// The bytes of edition 2's trailer.
pub const TRAILER: usize = 80;

/// The correction grid: 3 rows and 4 columns from (0, 0) to (2000, 3000).
pub const CORRECTIONS: Geometry = Geometry {
    columns: 4,
    ..G_GEOMETRY
};

/// The latitude correction 100 + 4 × row + 2 × column, the longitude correction −50 + 6 × column.
pub fn sloping(row: i32, column: i32) -> [i32; 2] {
    [100 + 4 * row + 2 * column, -50 + 6 * column]
}

/// The small image of a kind whose corrections stand in nodes.
pub fn in_nodes(kind: u32) -> Vec<u8> {
    let geometries = [CORRECTIONS, HEIGHT_GEOMETRY];
    image_of_kind(kind, geometries, sloping, sloping_heights)
}

/// The small image of kind 3.
pub fn in_planes() -> Vec<u8> {
    in_planes_of(sloping)
}

/// The small image of kind 3 with other corrections.
pub fn in_planes_of(correction: impl Fn(i32, i32) -> [i32; 2]) -> Vec<u8> {
    write_planes(
        &nodes_over(&CORRECTIONS, correction),
        &nodes_over(&HEIGHT_GEOMETRY, sloping_heights),
        &TwoGridTrailer {
            kind: 3,
            ..TwoGridTrailer::over(CORRECTIONS, HEIGHT_GEOMETRY)
        },
    )
}

/// The small image of kind 1: all of the correction grid is dense too, but lies so many nd further
/// north.
pub fn with_dense_grid(further_north: i64) -> Vec<u8> {
    let rest = in_nodes(1);
    let dense = Geometry {
        south: CORRECTIONS.south + further_north,
        ..CORRECTIONS
    };
    let trailer = TwoGridTrailer::over(CORRECTIONS, HEIGHT_GEOMETRY);
    write_dense(
        &nodes_over(&dense, sloping),
        &DenseTrailer::over(dense, &trailer),
        &rest,
    )
}

/// An image of edition 2 with a changed trailer.
pub fn changed(image: &[u8], change: impl Fn(&mut TwoGridTrailer)) -> Vec<u8> {
    let mut trailer = TwoGridTrailer::read(image).expect("80 bytes");
    change(&mut trailer);
    [&image[..image.len() - TRAILER], &trailer.write()].concat()
}
