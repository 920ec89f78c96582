//! One axis of a grid.

use super::geometry::{LATITUDE_LIMIT, LONGITUDE_LIMIT};
use crate::random::Random;
use reference::Geometry;

/// Lines at equal distances, and the limit of the angles that they stand for.
#[derive(Clone, Copy, Debug, PartialEq, Eq)]
pub struct Axis {
    pub low: i64,
    pub spacing: i64,
    pub lines: i64,
    pub limit: i64,
}

impl Axis {
    pub fn latitude(geometry: &Geometry) -> Axis {
        Axis {
            low: geometry.south,
            spacing: geometry.latitude_spacing.into(),
            lines: geometry.rows.into(),
            limit: LATITUDE_LIMIT,
        }
    }

    pub fn longitude(geometry: &Geometry) -> Axis {
        Axis {
            low: geometry.west,
            spacing: geometry.longitude_spacing.into(),
            lines: geometry.columns.into(),
            limit: LONGITUDE_LIMIT,
        }
    }

    pub fn extent(&self) -> i64 {
        (self.lines - 1) * self.spacing
    }

    pub fn high(&self) -> i64 {
        self.low + self.extent()
    }

    pub fn any_line(&self, random: &mut Random) -> i64 {
        self.low + random.between(0, self.lines - 1) * self.spacing
    }
}

/// The geometry of two axes.
pub fn geometry_of(latitude: &Axis, longitude: &Axis) -> Geometry {
    Geometry {
        south: latitude.low,
        west: longitude.low,
        latitude_spacing: latitude.spacing as u32,
        longitude_spacing: longitude.spacing as u32,
        rows: latitude.lines as u32,
        columns: longitude.lines as u32,
    }
}
