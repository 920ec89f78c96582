//! Points, and where a point lies in a grid.

use crate::{Fraction, Geometry};

/// A point, "whole nd; north and east are positive".
#[derive(Clone, Copy, Debug, PartialEq, Eq)]
pub struct Point {
    pub latitude: i128,
    pub longitude: i128,
}

/// Where a point lies along one axis: its cell, and its distance from the cell's south or west
/// side.
#[derive(Clone, Copy, Debug, PartialEq, Eq)]
pub struct Place {
    pub cell: i128,
    pub part: i128,
}

impl Place {
    /// "The cell of a point is found by rounding its distance from the south and west bounds
    /// down to whole spacings. On the northern or eastern bound the last cell is used, with the
    /// whole spacing as the point's part of it."
    pub fn find(distance: i128, spacing: i128, node_lines: i128) -> Place {
        let last_cell = node_lines - 2;
        if distance == (node_lines - 1) * spacing {
            return Place {
                cell: last_cell,
                part: spacing,
            };
        }
        let cell = Fraction::new(distance, spacing).rounded_down();
        Place {
            cell,
            part: distance - cell * spacing,
        }
    }
}

impl Geometry {
    /// The point's row of cells with u, and its column of cells with v.
    pub fn places(&self, point: Point) -> (Place, Place) {
        let from_south = point.latitude - i128::from(self.south);
        let from_west = point.longitude - i128::from(self.west);
        let (latitude_spacing, longitude_spacing) = self.spacings();
        (
            Place::find(from_south, latitude_spacing, self.rows.into()),
            Place::find(from_west, longitude_spacing, self.columns.into()),
        )
    }
}
