//! Made-up grids of either edition.

use super::dense::over_the_middle;
use super::{Edition, Geometry, Grid};

/// Latitude and longitude spacing of the corrections, 0.0125 and 0.02 degrees.
pub const CORRECTION_SPACINGS: [u32; 2] = [12_500_000, 20_000_000];

/// Those of the heights, 0.01 and 0.0125 degrees.
pub const HEIGHT_SPACINGS: [u32; 2] = [10_000_000, 12_500_000];

impl Geometry {
    /// The geometry of these spacings from zero on.
    pub fn from_zero(
        [latitude_spacing, longitude_spacing]: [u32; 2],
        rows: u32,
        columns: u32,
    ) -> Geometry {
        Geometry {
            south: 0,
            west: 0,
            latitude_spacing,
            longitude_spacing,
            rows,
            columns,
        }
    }

    /// The geometry of these spacings around 52 degrees north and 5 degrees east.
    pub fn national(spacings: [u32; 2], rows: u32, columns: u32) -> Geometry {
        let mut geometry = Geometry::from_zero(spacings, rows, columns);
        geometry.south = 52_000_000_000 - geometry.height() / 2;
        geometry.west = 5_000_000_000 - geometry.width() / 2;
        geometry
    }
}

/// A grid that passes the grid check, around 52 degrees north and 5 degrees east. Its values are
/// some 0.00095 and 0.0005 degrees and 43 m, with an uneven part that differs from node to node. In
/// edition 2 the heights cover its bounds. A dense grid lies over its middle, with an uneven part of
/// its own. In kind 2 the corrections go down to zero at the border.
pub fn national(edition: Edition, rows: u32, columns: u32) -> Grid {
    let geometry = Geometry::national(CORRECTION_SPACINGS, rows, columns);
    let heights = own_heights(edition, &geometry);
    let over = |correction: &dyn Fn(u32, u32) -> [i32; 2]| {
        Grid::new(geometry, heights, correction, uneven_height)
    };
    match edition {
        Edition::First | Edition::Second => over(&uneven_correction),
        Edition::SecondPlanes => over(&uneven_correction).in_planes(),
        Edition::SecondDense => over_the_middle(over(&uneven_correction), |row, column| {
            [3, 4].map(|value| uneven(row, column, value) / 5)
        }),
        Edition::SecondUnbounded => over(&|row, column| {
            let most = [40_000, 60_000];
            let most = below_the_border(&geometry, row, column, most);
            uneven_correction(row, column).map(|it| it.clamp(-most, most))
        })
        .unbounded(),
    }
}

/// What a correction may be that rises from zero at the border by so much for each row and each
/// column, at most.
fn below_the_border(geometry: &Geometry, row: u32, column: u32, steps: [i32; 2]) -> i32 {
    let from_border = |at: u32, lines: u32| at.min(lines - 1 - at) as i32;
    let in_latitude = steps[0] * from_border(row, geometry.rows);
    let in_longitude = steps[1] * from_border(column, geometry.columns);
    in_latitude.min(in_longitude)
}

/// Such a grid of edition 2 with heights spaced by 0.02 and 0.025 degrees: their cells are wider
/// than 2^48 nd², so the library does not weigh them as near corners.
pub fn wide_heights(rows: u32, columns: u32) -> Grid {
    let geometry = national(Edition::First, rows, columns).corrections;
    let heights = covering(&geometry, [20_000_000, 25_000_000]);
    Grid::new(geometry, Some(heights), uneven_correction, uneven_height)
}

/// A grid of edition 2 that passes the grid check, of 64 by 64 nodes as above, whose heights cover
/// its middle alone.
pub fn narrow_heights() -> Grid {
    let corrections = Geometry {
        south: 52_000_000_000,
        west: 5_000_000_000,
        ..Geometry::from_zero(CORRECTION_SPACINGS, 64, 64)
    };
    let heights = Geometry {
        south: 52_123_456_789,
        west: 5_123_456_789,
        latitude_spacing: 17_000_000,
        longitude_spacing: 23_000_000,
        rows: 33,
        columns: 49,
    };
    Grid::new(corrections, Some(heights), uneven_correction, uneven_height)
}

/// A grid of a size, with all values zero.
pub fn zeros(edition: Edition, rows: u32, columns: u32) -> Grid {
    let geometry = Geometry::from_zero(CORRECTION_SPACINGS, rows, columns);
    let grid = Grid::of_zeros(geometry, own_heights(edition, &geometry));
    of_kind(edition, grid)
}

/// The grid as one of an edition, in kind 1 with a dense one over its middle that adds nothing.
fn of_kind(edition: Edition, grid: Grid) -> Grid {
    match edition {
        Edition::First | Edition::Second => grid,
        Edition::SecondDense => over_the_middle(grid, |_, _| [0, 0]),
        Edition::SecondUnbounded => grid.unbounded(),
        Edition::SecondPlanes => grid.in_planes(),
    }
}

/// A grid of 21 by 21 nodes on which the way out from the middle has the given count, 1 to 5. The
/// latitude correction rises by a hundredth of the spacing from row to row, the most that the
/// grid check lets pass. In edition 2 the heights have one and a half times the spacings, and a
/// dense grid lies along the same slope.
pub fn with_count(edition: Edition, count: u32) -> Grid {
    if edition == Edition::SecondUnbounded {
        return unbounded_with_count(count);
    }
    let middle_correction = [0, 50, 1_000, 100_000, 9_000_000][count as usize - 1];
    let geometry = Geometry {
        south: 52_000_000_000,
        west: 5_000_000_000,
        latitude_spacing: 1_000_000,
        longitude_spacing: 1_000_000,
        rows: 21,
        columns: 21,
    };
    let heights = match edition {
        Edition::First => None,
        _ => Some(covering(&geometry, [1_500_000; 2])),
    };
    let correction = |row, _| [middle_correction + 10_000 * (row as i32 - 10), 0];
    let grid = Grid::new(geometry, heights, correction, |_, _| 430_000);
    of_kind(edition, grid)
}

/// The same of kind 2: over 27 by 105 nodes the latitude correction rises from zero at the border by
/// 1/125 of the spacing from row to row and by 1/500 from column to column, the most that the grid
/// check lets pass, up to the middle.
fn unbounded_with_count(count: u32) -> Grid {
    let step = [0, 4, 80, 8_000, 692_000][count as usize - 1];
    let spacing = (125 * step as u32).max(1_000);
    let geometry = Geometry {
        south: 52_000_000_000,
        west: 5_000_000_000,
        ..Geometry::from_zero([spacing; 2], 27, 105)
    };
    let heights = Some(covering(&geometry, [spacing; 2]));
    let correction = |row, column| {
        let most = below_the_border(&geometry, row, column, [step, step / 4]);
        [most, 0]
    };
    Grid::new(geometry, heights, correction, |_, _| 430_000).unbounded()
}

/// The heights' own geometry in edition 2: that of their spacings, or the corrections' where rows or
/// columns would be too many.
pub fn own_heights(edition: Edition, corrections: &Geometry) -> Option<Geometry> {
    if edition == Edition::First {
        return None;
    }
    let dense = covering(corrections, HEIGHT_SPACINGS);
    let fits = dense.rows <= 4_096 && dense.columns <= 4_096;
    Some(if fits { dense } else { *corrections })
}

/// The smallest geometry of these spacings around the same middle that covers the bounds.
fn covering(bounds: &Geometry, [latitude_spacing, longitude_spacing]: [u32; 2]) -> Geometry {
    let count = |length: i64, spacing: u32| (length as u64).div_ceil(spacing.into()) as u32 + 1;
    let mut geometry = Geometry {
        latitude_spacing,
        longitude_spacing,
        rows: count(bounds.height(), latitude_spacing),
        columns: count(bounds.width(), longitude_spacing),
        ..*bounds
    };
    geometry.south -= (geometry.height() - bounds.height()) / 2;
    geometry.west -= (geometry.width() - bounds.width()) / 2;
    geometry
}

fn uneven_correction(row: u32, column: u32) -> [i32; 2] {
    let uneven = |value| uneven(row, column, value);
    [950_000 + uneven(0), -500_000 + uneven(1)]
}

fn uneven_height(row: u32, column: u32) -> i32 {
    430_000 + uneven(row, column, 2)
}

/// A number from 0 to 19,999 that is different for each node and value, without a pattern.
fn uneven(row: u32, column: u32, value: u64) -> i32 {
    let place = (u64::from(row) << 32 | u64::from(column)).wrapping_mul(3) + value;
    (crate::fixes::mixed(place) % 20_000) as i32
}
