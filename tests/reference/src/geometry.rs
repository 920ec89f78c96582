//! The geometry of a grid: its 32 bytes, questions 3 to 5, and its bounds.

use crate::numbers::{i64_at, u32_at, u32_bytes};
use crate::{within, Point, DEGREE};

/// "Southern latitude and western longitude (i64, nd), latitude spacing, longitude spacing, rows,
/// columns" (u32 each): the first 32 bytes of edition 1's trailer. Edition 2's trailer has two,
/// "each like the old trailer's first 32 bytes".
#[derive(Clone, Copy, Debug, PartialEq, Eq)]
pub struct Geometry {
    pub south: i64,
    pub west: i64,
    pub latitude_spacing: u32,
    pub longitude_spacing: u32,
    pub rows: u32,
    pub columns: u32,
}

impl Geometry {
    /// The geometry of two axes, each given by its southern or western bound, its spacing and its
    /// count: nothing if it is outside questions 3 to 5, as is a number that a trailer could not
    /// hold.
    pub(crate) fn within_questions_3_to_5(
        [south, latitude_spacing, rows]: [i128; 3],
        [west, longitude_spacing, columns]: [i128; 3],
    ) -> Option<Geometry> {
        let geometry = Geometry {
            south: i64::try_from(south).ok()?,
            west: i64::try_from(west).ok()?,
            latitude_spacing: u32::try_from(latitude_spacing).ok()?,
            longitude_spacing: u32::try_from(longitude_spacing).ok()?,
            rows: u32::try_from(rows).ok()?,
            columns: u32::try_from(columns).ok()?,
        };
        let fits = geometry.counts_fit() && geometry.spacings_fit() && geometry.bounds_fit();
        fits.then_some(geometry)
    }

    /// The geometry that these bytes begin with.
    pub(crate) fn read(bytes: &[u8]) -> Geometry {
        Geometry {
            south: i64_at(bytes, 0),
            west: i64_at(bytes, 8),
            latitude_spacing: u32_at(bytes, 16),
            longitude_spacing: u32_at(bytes, 20),
            rows: u32_at(bytes, 24),
            columns: u32_at(bytes, 28),
        }
    }

    /// The geometry's 32 bytes.
    pub(crate) fn write(&self) -> Vec<u8> {
        [
            self.south.to_le_bytes().to_vec(),
            self.west.to_le_bytes().to_vec(),
            u32_bytes(&[self.latitude_spacing, self.longitude_spacing]),
            u32_bytes(&[self.rows, self.columns]),
        ]
        .concat()
    }

    /// "Rows × columns".
    pub fn nodes(&self) -> i128 {
        i128::from(self.rows) * i128::from(self.columns)
    }

    /// The rows and columns of all nodes.
    pub fn node_places(&self) -> impl Iterator<Item = (i128, i128)> {
        let (rows, columns) = (self.rows, self.columns);
        (0..rows).flat_map(move |row| (0..columns).map(move |column| (row.into(), column.into())))
    }

    /// Is the node one of the first or last row or column?
    pub fn is_on_the_border(&self, row: i128, column: i128) -> bool {
        [0, i128::from(self.rows) - 1].contains(&row)
            || [0, i128::from(self.columns) - 1].contains(&column)
    }

    /// The rows and columns of the nodes on the border.
    pub(crate) fn border_places(&self) -> impl Iterator<Item = (i128, i128)> + '_ {
        self.node_places()
            .filter(|(row, column)| self.is_on_the_border(*row, *column))
    }

    /// "P and Q the latitude and longitude spacing."
    pub fn spacings(&self) -> (i128, i128) {
        (self.latitude_spacing.into(), self.longitude_spacing.into())
    }

    /// "North is south plus (rows − 1) spacings".
    pub fn north(&self) -> i128 {
        let (latitude_spacing, _) = self.spacings();
        i128::from(self.south) + (i128::from(self.rows) - 1) * latitude_spacing
    }

    /// "east likewise."
    pub fn east(&self) -> i128 {
        let (_, longitude_spacing) = self.spacings();
        i128::from(self.west) + (i128::from(self.columns) - 1) * longitude_spacing
    }

    /// "In the bounds, all four included".
    pub fn contains(&self, point: Point) -> bool {
        i128::from(self.south) <= point.latitude
            && point.latitude <= self.north()
            && i128::from(self.west) <= point.longitude
            && point.longitude <= self.east()
    }

    /// "3. Are rows and columns each from 2 to 4,096?"
    pub fn counts_fit(&self) -> bool {
        let fits = |count: u32| (2..=4_096).contains(&count);
        fits(self.rows) && fits(self.columns)
    }

    /// "4. Is each spacing from 1 to 100,000,000?"
    pub fn spacings_fit(&self) -> bool {
        let fits = |spacing: u32| (1..=100_000_000).contains(&spacing);
        fits(self.latitude_spacing) && fits(self.longitude_spacing)
    }

    /// "5. Are south and north bound from −90 to 90 degrees, west and east bound from −180 to
    /// 180?"
    pub fn bounds_fit(&self) -> bool {
        within(self.south.into(), 90 * DEGREE)
            && within(self.north(), 90 * DEGREE)
            && within(self.west.into(), 180 * DEGREE)
            && within(self.east(), 180 * DEGREE)
    }
}
