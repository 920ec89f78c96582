//! The geometry of a file, as its conversion hands it back.

use super::axis::Axis;

/// South, west, latitude spacing, longitude spacing, rows and columns.
pub type FileGeometry = [i64; 6];

/// Limits of question 5 and question 4.
pub const LATITUDE_LIMIT: i64 = 90_000_000_000;
pub const LONGITUDE_LIMIT: i64 = 180_000_000_000;
pub const SPACING_LIMIT: i64 = 100_000_000;

/// An axis as a file gives it: start and spacing in nd, and the number of nodes.
#[derive(Clone, Copy)]
pub struct FileAxis {
    pub start: i64,
    pub spacing: i64,
    pub count: i64,
}

impl FileAxis {
    /// Questions 3 to 5 of one axis.
    fn passes(&self, limit: i64) -> bool {
        (2..=4_096).contains(&self.count)
            && (1..=SPACING_LIMIT).contains(&self.spacing)
            && Axis::new(self.start, self.spacing as u32, self.count as u32, limit).is_some()
    }
}

/// The geometry of two axes, unless one of questions 3 to 5 refuses it.
pub fn judged(latitude: FileAxis, longitude: FileAxis) -> Option<FileGeometry> {
    let passes = latitude.passes(LATITUDE_LIMIT) && longitude.passes(LONGITUDE_LIMIT);
    passes.then_some([
        latitude.start,
        longitude.start,
        latitude.spacing,
        longitude.spacing,
        latitude.count,
        longitude.count,
    ])
}
