//! What is measured.

use bench::Edition;

/// Rows and columns of the corrections, or of a file.
pub type Size = (u32, u32);

/// What is measured of an edition.
pub struct Plan {
    pub edition: Edition,
    pub sizes: &'static [Size],
    /// Of the sizes, those measured with wide height cells too.
    pub wide_sizes: &'static [Size],
    /// Lengths of the lists over the grid of `SIZE_OF_LENGTHS`.
    pub lengths: &'static [usize],
    /// Measurements of one piece of work.
    pub repeats: usize,
}

/// What is measured of the conversion of each kind of files.
pub struct FilePlan {
    pub sizes: &'static [Size],
    /// Measurements of one piece of work.
    pub repeats: usize,
}

/// Rows and columns of the grids.
pub const SIZES: [Size; 5] = [(3, 3), (64, 64), (481, 301), (1_024, 1_024), (4_096, 4_096)];

/// Those of the largest file, whose conversion is to take less than a second.
pub const LARGEST: Size = SIZES[4];

/// Those of the first grid of a file with a subgrid.
pub const SIZE_OF_SUBGRIDS: Size = SIZES[2];

/// Those of the grids with wide height cells.
pub const WIDE_SIZES: [Size; 2] = [SIZES[2], SIZES[4]];

/// Fixes in the lists over them.
pub const LENGTH_OF_SIZES: usize = 1_000;

/// Lengths of the other lists.
pub const LENGTHS: [usize; 5] = [1, 10, 100, 1_000, 10_000];

/// Rows and columns of the grid for those, and for the distance of PROJ's answers.
pub const SIZE_OF_LENGTHS: Size = SIZES[2];

/// Fixes whose distance is taken.
pub const LENGTH_OF_DISTANCE: usize = 10_000;

impl Plan {
    /// All, for the results.
    pub fn whole(edition: Edition) -> Plan {
        Plan {
            edition,
            sizes: &SIZES,
            wide_sizes: match edition {
                Edition::Second => &WIDE_SIZES,
                _ => &[],
            },
            lengths: &LENGTHS,
            repeats: 51,
        }
    }

    /// The sizes between the smallest and the largest, for those who tune.
    pub fn quick(edition: Edition) -> Plan {
        Plan {
            edition,
            sizes: &SIZES[1..4],
            wide_sizes: &[],
            lengths: &[],
            repeats: 21,
        }
    }
}

impl FilePlan {
    /// All, for the results.
    pub fn whole() -> FilePlan {
        FilePlan {
            sizes: &SIZES[2..],
            repeats: 51,
        }
    }

    /// Without the largest, for those who tune.
    pub fn quick() -> FilePlan {
        FilePlan {
            sizes: &SIZES[2..4],
            repeats: 21,
        }
    }
}
