//! VDatum .gtx files as bytes.

use crate::grid::Geometry;

/// Bytes before the first node, and of a node.
pub const HEADER_BYTES: usize = 40;
pub const NODE_BYTES: usize = 4;

/// The file of a geometry, with heights in metres by row and column.
pub fn bytes(geometry: &Geometry, metres: impl Fn(u32, u32) -> f32) -> Vec<u8> {
    let mut bytes = Vec::with_capacity(HEADER_BYTES + NODE_BYTES * geometry.nodes());
    let spacings = [geometry.latitude_spacing, geometry.longitude_spacing].map(i64::from);
    for nd in [geometry.south, geometry.west].into_iter().chain(spacings) {
        bytes.extend((nd as f64 / 1e9).to_be_bytes());
    }
    for count in [geometry.rows, geometry.columns] {
        bytes.extend(count.to_be_bytes());
    }
    for (row, column) in geometry.places() {
        bytes.extend(metres(row, column).to_be_bytes());
    }
    bytes
}
