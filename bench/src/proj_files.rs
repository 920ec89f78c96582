//! A grid as the files that PROJ reads: corrections as .gsb (NTv2), heights as .gtx.

use bench::grid::Grid;
use bench::{gsb, gtx};
use std::fs;
use std::io::Result;
use std::path::Path;

/// The corrections, seconds of arc in 32-bit floating point; dense ones as a subgrid.
pub fn write_gsb(grid: &Grid, path: &Path) -> Result<()> {
    let seconds = |nd: i32| (f64::from(nd) * gsb::SECONDS) as f32;
    let shifts = |[latitude, longitude]: [i32; 2]| [seconds(latitude), seconds(-longitude)];
    let corrections = |row, column| shifts(grid.correction(row, column));
    let mut file = gsb::bytes(&grid.corrections, corrections);
    if let Some(dense) = &grid.dense {
        let corrections = |row, column| shifts(grid.dense_correction(row, column));
        file = gsb::with_subgrid(file, gsb::bytes(dense, corrections));
    }
    fs::write(path, file)
}

/// The heights with their own geometry.
pub fn write_gtx(grid: &Grid, path: &Path) -> Result<()> {
    let metres = |row, column| (f64::from(grid.height(row, column)) / 1e4) as f32;
    fs::write(path, gtx::bytes(&grid.heights, metres))
}
