//! A small image of kind 1, and variants of it. Points are offsets from G's south-west corner.

use crate::common::{g_node, nodes_over, G_GEOMETRY, SOUTH, WEST};
use reference::{write_dense, write_two_grids, DenseTrailer, Geometry, TwoGridTrailer};

/// The coarse grid: 4 rows and columns from (0, 0) to (3000, 3000).
pub const COARSE: Geometry = Geometry {
    rows: 4,
    columns: 4,
    ..G_GEOMETRY
};

/// The height grid: 6 rows and 4 columns from (−400, 100) to (3100, 2800).
pub const HEIGHTS: Geometry = Geometry {
    south: SOUTH - 400,
    west: WEST + 100,
    latitude_spacing: 700,
    longitude_spacing: 900,
    rows: 6,
    columns: 4,
};

/// The dense grid: the coarse grid's middle cell, from (1000, 1000) to (2000, 2000), in 4 rows and
/// 2 columns of cells.
pub const DENSE: Geometry = Geometry {
    south: SOUTH + 1_000,
    west: WEST + 1_000,
    latitude_spacing: 250,
    longitude_spacing: 500,
    rows: 5,
    columns: 3,
};

/// The geometries of the small image.
pub const GEOMETRIES: Geometries = Geometries {
    coarse: COARSE,
    heights: HEIGHTS,
    dense: DENSE,
};

/// The geometries of an image of kind 1.
#[derive(Clone, Copy)]
pub struct Geometries {
    pub coarse: Geometry,
    pub heights: Geometry,
    pub dense: Geometry,
}

impl Geometries {
    /// The right trailer.
    pub fn trailer(&self) -> TwoGridTrailer {
        TwoGridTrailer {
            kind: 1,
            ..TwoGridTrailer::over(self.coarse, self.heights)
        }
    }

    /// The right 36 bytes.
    pub fn dense_trailer(&self) -> DenseTrailer {
        DenseTrailer::over(self.dense, &self.trailer())
    }

    /// The image with these corrections by row and column, coarse and dense, and sloping heights.
    pub fn image(
        &self,
        coarse: impl Fn(i32, i32) -> [i32; 2],
        dense: impl Fn(i32, i32) -> [i32; 2],
    ) -> Vec<u8> {
        let corrections = nodes_over(&self.coarse, coarse);
        let heights = nodes_over(&self.heights, sloping_height);
        let rest = write_two_grids(&corrections, &heights, &self.trailer());
        write_dense(
            &nodes_over(&self.dense, dense),
            &self.dense_trailer(),
            &rest,
        )
    }
}

/// The small image's grids with spacings so many times as wide, but for the heights'.
pub fn wide(times: u32) -> Geometries {
    let wide = |geometry: Geometry| Geometry {
        latitude_spacing: times * geometry.latitude_spacing,
        longitude_spacing: times * geometry.longitude_spacing,
        ..geometry
    };
    let cell = 1_000 * i64::from(times);
    let dense = Geometry {
        south: COARSE.south + cell,
        west: COARSE.west + cell,
        ..wide(DENSE)
    };
    Geometries {
        coarse: wide(COARSE),
        dense,
        ..GEOMETRIES
    }
}

/// As G has them: the latitude correction 100 + 4 × row, the longitude correction −50.
pub fn coarse_corrections(row: i32, column: i32) -> [i32; 2] {
    let [latitude, longitude, _] = g_node(row, column);
    [latitude, longitude]
}

/// The latitude correction 104 + row, as the coarse ones are there, and 1 more inside the border;
/// the longitude correction −51.
pub fn dense_corrections(row: i32, column: i32) -> [i32; 2] {
    let inside = (1..4).contains(&row) && column == 1;
    [104 + row + i32::from(inside), -51]
}

/// Heights 430,000 + 3 × row + 4 × column.
fn sloping_height(row: i32, column: i32) -> [i32; 1] {
    [430_000 + 3 * row + 4 * column]
}

/// The small image with other corrections.
pub fn image_of(
    coarse: impl Fn(i32, i32) -> [i32; 2],
    dense: impl Fn(i32, i32) -> [i32; 2],
) -> Vec<u8> {
    GEOMETRIES.image(coarse, dense)
}

pub fn small_image() -> Vec<u8> {
    image_of(coarse_corrections, dense_corrections)
}

/// The small image with one value put into one of its dense nodes.
pub fn with_dense_value(
    row: i32,
    column: i32,
    value: usize,
    stands_there: impl Fn(i32) -> i32,
) -> Vec<u8> {
    image_of(coarse_corrections, |at_row, at_column| {
        let mut node = dense_corrections(at_row, at_column);
        if (at_row, at_column) == (row, column) {
            node[value] = stands_there(node[value]);
        }
        node
    })
}

/// The same bytes said to be of kind 0, before whose correction nodes nothing has a meaning.
pub fn as_kind_0(mut image: Vec<u8>) -> Vec<u8> {
    let kind = image.len() - 8;
    image[kind] = 0;
    image
}
