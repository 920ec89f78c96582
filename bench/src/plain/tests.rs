//! Document 01's figures for its grid G, figures of edition 2 on G's corrections, without a dense grid
//! and with one, past the edge of other ones and in planes, figures of the converters, and figures of
//! VDatum and NTv2 files.

mod converters;
mod edition_1;
mod edition_2;
mod edition_2_images;
mod kind_1;
mod kind_1_images;
mod kind_2;
mod kind_3;
mod ntv2;
mod ntv2_files;
mod ntv2_subgrids;
mod vdatum;
mod vdatum_files;

use super::list;
use crate::grid::{Geometry, Grid};
use crate::Way;

const SOUTH: i64 = 52_000_000_000;
const WEST: i64 = 5_000_000_000;

/// G's geometry.
const GEOMETRY: Geometry = Geometry {
    south: SOUTH,
    west: WEST,
    latitude_spacing: 1_000,
    longitude_spacing: 1_000,
    rows: 3,
    columns: 3,
};

/// G's corrections.
fn correction(row: u32, _: u32) -> [i32; 2] {
    [100 + 4 * row as i32, -50]
}

/// The answer to a fix that is given by offsets from G's south-west corner, as offsets.
fn answer(grid: &Grid, way: Way, [north, east, height]: [i64; 3]) -> [i64; 5] {
    let mut five = [0; 5];
    let fix = [SOUTH + north, WEST + east, height];
    assert_eq!(list(way, &grid.image, &fix, &mut five), 0);
    if [0, 100].contains(&five[4]) {
        five[0] -= SOUTH;
        five[1] -= WEST;
    }
    five
}

/// The answer to a fix that gets a number.
fn refused(number: i64) -> [i64; 5] {
    [0, 0, 0, 0, number]
}
