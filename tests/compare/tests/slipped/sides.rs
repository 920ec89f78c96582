//! The sides of a grid.

use compare::nearest_point;
use reference::{Geometry, Point};

/// A side of a grid.
#[derive(Clone, Copy, Debug, PartialEq, Eq)]
pub enum Side {
    South,
    North,
    West,
    East,
}

impl Side {
    /// Is the point so far past this bound, and between the others?
    pub fn is_past_by(self, geometry: &Geometry, point: Point, distance: i128) -> bool {
        let past = match self {
            Side::South => i128::from(geometry.south) - point.latitude,
            Side::North => point.latitude - geometry.north(),
            Side::West => i128::from(geometry.west) - point.longitude,
            Side::East => point.longitude - geometry.east(),
        };
        let on_the_grid = nearest_point(geometry, point);
        let off_latitude = on_the_grid.latitude != point.latitude;
        let off_longitude = on_the_grid.longitude != point.longitude;
        past == distance && usize::from(off_latitude) + usize::from(off_longitude) < 2
    }

    /// The sides that a node, given by row and column, stands on: two at a corner.
    pub fn of_node(geometry: &Geometry, (row, column): (i128, i128)) -> Vec<Side> {
        let sides = [
            (Side::South, row == 0),
            (Side::North, row == i128::from(geometry.rows) - 1),
            (Side::West, column == 0),
            (Side::East, column == i128::from(geometry.columns) - 1),
        ];
        let stands_on = sides.into_iter().filter(|(_, stands)| *stands);
        stands_on.map(|(side, _)| side).collect()
    }
}
