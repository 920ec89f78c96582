//! One grid of an image: the place of a point in it and the bilinear values there.

use std::ops::RangeInclusive;

/// A grid whose nodes have so many bytes, opened without a question.
pub struct Nodes<'a, const BYTES: usize> {
    image: &'a [u8],
    /// The first node's first byte.
    first: usize,
    latitude: Axis,
    longitude: Axis,
}

/// One axis: its start in nd, the reciprocal of its spacing, its last cell, and the bytes from
/// one node to the next.
struct Axis {
    start: i64,
    per_spacing: f64,
    last_cell: usize,
    step: usize,
}

/// Where a point lies: its cell's south-west node, and its parts of the cell.
pub struct Place {
    node: usize,
    north: f64,
    east: f64,
}

/// The bounds of a grid in latitude and in longitude.
pub struct Bounds([RangeInclusive<i64>; 2]);

impl Bounds {
    #[inline]
    pub fn hold(&self, latitude: i64, longitude: i64) -> bool {
        let [latitudes, longitudes] = &self.0;
        latitudes.contains(&latitude) && longitudes.contains(&longitude)
    }
}

/// A trailer's bytes.
pub struct Trailer<'a>(&'a [u8]);

impl<'a> Trailer<'a> {
    /// The trailer of so many bytes.
    pub fn of(image: &'a [u8], bytes: usize) -> Trailer<'a> {
        Trailer(&image[image.len() - bytes..])
    }

    fn long(&self, at: usize) -> i64 {
        i64::from_le_bytes(self.0[at..at + 8].try_into().expect("8 bytes"))
    }

    pub fn short(&self, at: usize) -> u32 {
        u32::from_le_bytes(self.0[at..at + 4].try_into().expect("4 bytes"))
    }

    /// The bounds of the geometry that begins at a byte.
    pub fn bounds(&self, at: usize) -> Bounds {
        Bounds([0, 1].map(|axis| {
            let start = self.long(at + 8 * axis);
            let [spacing, count] = [16, 24].map(|part| i64::from(self.short(at + part + 4 * axis)));
            start..=start + spacing * (count - 1)
        }))
    }
}

impl<'a, const BYTES: usize> Nodes<'a, BYTES> {
    /// The grid of the geometry that begins at a byte of the trailer, its nodes so far back.
    pub fn open(image: &'a [u8], trailer: &Trailer, at: usize, back: u32) -> Self {
        let axis = |start: i64, spacing: u32, count: u32, step: usize| Axis {
            start,
            per_spacing: 1.0 / f64::from(spacing),
            last_cell: count as usize - 2,
            step,
        };
        let [latitude_spacing, longitude_spacing, rows, columns] =
            [16, 20, 24, 28].map(|part| trailer.short(at + part));
        let row_bytes = BYTES * columns as usize;
        Nodes {
            image,
            first: image.len() - back as usize,
            latitude: axis(trailer.long(at), latitude_spacing, rows, row_bytes),
            longitude: axis(trailer.long(at + 8), longitude_spacing, columns, BYTES),
        }
    }

    #[inline]
    pub fn place(&self, latitude: i64, longitude: i64) -> Place {
        let (row, north) = self.latitude.place(latitude);
        let (column, east) = self.longitude.place(longitude);
        Place {
            node: self.first + row + column,
            north,
            east,
        }
    }

    /// One bilinear value, whose place in a node is given.
    #[inline]
    pub fn value(&self, place: &Place, value: usize) -> f64 {
        let (row, node) = (self.latitude.step, place.node + value);
        let corner = |at: usize| unsafe { number_at(self.image, node + at) };
        let south = mixed(corner(0), corner(BYTES), place.east);
        let north = mixed(corner(row), corner(row + BYTES), place.east);
        mixed(south, north, place.north)
    }
}

impl Axis {
    /// The bytes from the first node to an angle's cell, and the angle's part of the cell.
    #[inline]
    fn place(&self, angle: i64) -> (usize, f64) {
        let spacings = (angle - self.start) as f64 * self.per_spacing;
        let cell = unsafe { spacings.to_int_unchecked::<i64>() as usize }.min(self.last_cell);
        (self.step * cell, spacings - cell as f64)
    }
}

#[inline]
fn mixed(first: f64, second: f64, part: f64) -> f64 {
    first + (second - first) * part
}

/// The i32 at a byte.
///
/// Safety: the four bytes lie in the image.
#[inline]
unsafe fn number_at(image: &[u8], at: usize) -> f64 {
    let bytes = image.as_ptr().add(at).cast::<[u8; 4]>();
    f64::from(i32::from_le_bytes(*bytes))
}
