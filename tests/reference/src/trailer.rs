//! The trailers of the two editions, and of the dense nodes.

use crate::numbers::{u32_at, u32_bytes};
use crate::{Arrangement, Geometry};

const TRAILER_BYTES: usize = 40;
const TWO_GRID_TRAILER_BYTES: usize = 80;
const DENSE_TRAILER_BYTES: usize = 36;

/// Edition 1: "The image ends in a trailer of 40 bytes: southern latitude and western longitude
/// (i64, nd), latitude spacing, longitude spacing, rows, columns, back, edition (u32 each)."
#[derive(Clone, Copy, Debug, PartialEq, Eq)]
pub struct Trailer {
    pub geometry: Geometry,
    pub back: u32,
    pub edition: u32,
}

impl Trailer {
    /// The right trailer over a geometry.
    pub fn over(geometry: Geometry) -> Trailer {
        let trailer = Trailer {
            geometry,
            back: 0,
            edition: 1,
        };
        Trailer {
            back: trailer.right_back() as u32,
            ..trailer
        }
    }

    /// The last 40 bytes of an image as a trailer, if it has so many.
    pub fn read(image: &[u8]) -> Option<Trailer> {
        let bytes = image.last_chunk::<TRAILER_BYTES>()?;
        Some(Trailer {
            geometry: Geometry::read(bytes),
            back: u32_at(bytes, 32),
            edition: u32_at(bytes, 36),
        })
    }

    /// The trailer's 40 bytes.
    pub fn write(&self) -> Vec<u8> {
        let rest = u32_bytes(&[self.back, self.edition]);
        [self.geometry.write(), rest].concat()
    }

    /// "12 × rows × columns + 40".
    pub fn right_back(&self) -> i128 {
        12 * self.geometry.nodes() + 40
    }
}

/// Edition 2: "a trailer of 80 bytes: correction geometry, height geometry (each like the old
/// trailer's first 32 bytes), back to the correction nodes, back to the height nodes, kind (u32,
/// only 0 for now), edition." Since note 5 also 1, since note 6 also 2, since note 8
/// also 3.
#[derive(Clone, Copy, Debug, PartialEq, Eq)]
pub struct TwoGridTrailer {
    pub corrections: Geometry,
    pub heights: Geometry,
    pub correction_back: u32,
    pub height_back: u32,
    pub kind: u32,
    pub edition: u32,
}

impl TwoGridTrailer {
    /// The right trailer of kind 0 over two geometries.
    pub fn over(corrections: Geometry, heights: Geometry) -> TwoGridTrailer {
        let trailer = TwoGridTrailer {
            corrections,
            heights,
            correction_back: 0,
            height_back: 0,
            kind: 0,
            edition: 2,
        };
        TwoGridTrailer {
            correction_back: trailer.right_correction_back() as u32,
            height_back: trailer.right_height_back() as u32,
            ..trailer
        }
    }

    /// The last 80 bytes of an image as a trailer, if it has so many.
    pub fn read(image: &[u8]) -> Option<TwoGridTrailer> {
        let bytes = image.last_chunk::<TWO_GRID_TRAILER_BYTES>()?;
        Some(TwoGridTrailer {
            corrections: Geometry::read(bytes),
            heights: Geometry::read(&bytes[32..]),
            correction_back: u32_at(bytes, 64),
            height_back: u32_at(bytes, 68),
            kind: u32_at(bytes, 72),
            edition: u32_at(bytes, 76),
        })
    }

    /// The trailer's 80 bytes.
    pub fn write(&self) -> Vec<u8> {
        let backs = u32_bytes(&[self.correction_back, self.height_back]);
        let rest = u32_bytes(&[self.kind, self.edition]);
        [self.corrections.write(), self.heights.write(), backs, rest].concat()
    }

    /// How the corrections stand.
    pub fn arrangement(&self) -> Arrangement {
        match self.kind {
            3 => Arrangement::Planes,
            _ => Arrangement::Nodes,
        }
    }

    /// "Height nodes of 4 bytes, then a trailer of 80 bytes", which "touch each other".
    pub fn right_height_back(&self) -> i128 {
        4 * self.heights.nodes() + 80
    }

    /// "Correction nodes of 8 bytes, then height nodes", which touch each other too.
    pub fn right_correction_back(&self) -> i128 {
        8 * self.corrections.nodes() + self.right_height_back()
    }
}

/// Kind 1: "dense nodes of 8 bytes, then 36 bytes (dense geometry and back to those nodes, u32)
/// directly before the edition 2 correction nodes; backs still count from the image's end."
#[derive(Clone, Copy, Debug, PartialEq, Eq)]
pub struct DenseTrailer {
    pub geometry: Geometry,
    pub back: u32,
}

impl DenseTrailer {
    /// The right one over a geometry, before the correction nodes of a trailer.
    pub fn over(geometry: Geometry, trailer: &TwoGridTrailer) -> DenseTrailer {
        let dense = DenseTrailer { geometry, back: 0 };
        DenseTrailer {
            back: dense.right_back(trailer) as u32,
            ..dense
        }
    }

    /// The 36 bytes before what the trailer says are the correction nodes, if the image has so
    /// many.
    pub fn read(image: &[u8], trailer: &TwoGridTrailer) -> Option<DenseTrailer> {
        let first_correction = image.len().checked_sub(trailer.correction_back as usize)?;
        let bytes = image[..first_correction].last_chunk::<DENSE_TRAILER_BYTES>()?;
        Some(DenseTrailer {
            geometry: Geometry::read(bytes),
            back: u32_at(bytes, 32),
        })
    }

    /// The 36 bytes.
    pub fn write(&self) -> Vec<u8> {
        [self.geometry.write(), u32_bytes(&[self.back])].concat()
    }

    /// From the image's end: the correction nodes and what follows them, the 36 bytes, and the
    /// dense nodes.
    pub fn right_back(&self, trailer: &TwoGridTrailer) -> i128 {
        8 * self.geometry.nodes() + 36 + trailer.right_correction_back()
    }
}
