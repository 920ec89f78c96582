//! Grid G of document 01 and its variants, as bytes, for the tests of the figures.

use reference::{write_image, Fix, Geometry, Point, Trailer};

pub const SOUTH: i64 = 52_000_000_000;
pub const WEST: i64 = 5_000_000_000;

/// "G: south 52,000,000,000, west 5,000,000,000, spacings 1,000, 3 rows, 3 columns."
pub const G_GEOMETRY: Geometry = Geometry {
    south: SOUTH,
    west: WEST,
    latitude_spacing: 1_000,
    longitude_spacing: 1_000,
    rows: 3,
    columns: 3,
};

/// G's trailer.
pub const G_TRAILER: Trailer = Trailer {
    geometry: G_GEOMETRY,
    back: 148,
    edition: 1,
};

/// "Latitude correction 100 + 4 × row, longitude correction −50, height 430,000 + 5 × column."
pub fn g_node(row: i32, column: i32) -> [i32; 3] {
    [100 + 4 * row, -50, 430_000 + 5 * column]
}

/// The nodes over a geometry, given by row and column.
pub fn nodes_over<Node>(geometry: &Geometry, node: impl Fn(i32, i32) -> Node) -> Vec<Node> {
    (0..geometry.rows as i32)
        .flat_map(|row| (0..geometry.columns as i32).map(move |column| (row, column)))
        .map(|(row, column)| node(row, column))
        .collect()
}

/// An image over a trailer's geometry, its nodes given by row and column.
pub fn image_of(trailer: &Trailer, node: impl Fn(i32, i32) -> [i32; 3]) -> Vec<u8> {
    write_image(&nodes_over(&trailer.geometry, node), trailer)
}

pub fn grid_g() -> Vec<u8> {
    image_of(&G_TRAILER, g_node)
}

/// "Points below are offsets from the south-west corner."
pub fn fix_at(latitude: i64, longitude: i64, height: i64) -> Fix {
    Fix {
        point: point_at(latitude, longitude),
        height: height.into(),
    }
}

pub fn point_at(latitude: i64, longitude: i64) -> Point {
    Point {
        latitude: (SOUTH + latitude).into(),
        longitude: (WEST + longitude).into(),
    }
}
