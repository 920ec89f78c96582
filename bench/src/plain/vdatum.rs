//! VDatum files (document 02, note 2): the heights of a .gtx file as nodes of edition 2.

use super::file_geometry::{self, FileAxis, FileGeometry};
use super::file_geometry::{LATITUDE_LIMIT, LONGITUDE_LIMIT, SPACING_LIMIT};
use super::floats::{Exact, Scale};
use super::Number;
use crate::FileRoom;

/// Bytes before the first node.
const HEADER_BYTES: usize = 40;

/// nd in a degree, and units in a metre.
const DEGREES: Scale = Scale {
    over: 1_000_000_000,
    under: 1,
};
const METRES: Scale = Scale {
    over: 10_000,
    under: 1,
};

// A function of its own, so that the list calls' code does not bear on its speed.
#[inline(never)]
pub fn heights_from_vdatum(file: &[u8], room: FileRoom) -> Number {
    let nodes = room.nodes;
    let Some(found) = judge_file(file, nodes.len()) else {
        return 16;
    };
    let floats = &file[HEADER_BYTES..];
    if !floats.chunks_exact(4).all(|float| units(float).is_some()) {
        return 17;
    }
    for (float, node) in floats.chunks_exact(4).zip(nodes.chunks_exact_mut(4)) {
        if let Some(units) = units(float) {
            node.copy_from_slice(&units.to_le_bytes());
        }
    }
    room.geometry[..6].copy_from_slice(&found);
    0
}

/// The geometry of a file, unless the file or the length of the buffer is refused with 16.
fn judge_file(file: &[u8], nodes_length: usize) -> Option<FileGeometry> {
    let header: &[u8; HEADER_BYTES] = file.first_chunk()?;
    let latitude = FileAxis {
        start: angle(header, 0, LATITUDE_LIMIT)?,
        spacing: angle(header, 16, SPACING_LIMIT)?,
        count: count(header, 32),
    };
    let longitude = FileAxis {
        start: angle(header, 8, LONGITUDE_LIMIT)?,
        spacing: angle(header, 24, SPACING_LIMIT)?,
        count: count(header, 36),
    };
    let geometry = file_geometry::judged(latitude, longitude)?;
    let length = 4 * (latitude.count * longitude.count) as usize;
    let fits = file.len() == HEADER_BYTES + length && nodes_length == length;
    fits.then_some(geometry)
}

/// The angle at a byte of the header, in nd, unless it is not finite or past the limit.
fn angle(header: &[u8; HEADER_BYTES], at: usize, limit: i64) -> Option<i64> {
    let degrees = f64::from_be_bytes(header[at..at + 8].try_into().expect("8 bytes"));
    Exact::of_f64(degrees)?.nearest(DEGREES, limit)
}

/// The rows or columns at a byte of the header.
fn count(header: &[u8; HEADER_BYTES], at: usize) -> i64 {
    i32::from_be_bytes(header[at..at + 4].try_into().expect("4 bytes")).into()
}

/// A node's height in units, unless 17 refuses it.
fn units(float: &[u8]) -> Option<i32> {
    let metres = f32::from_be_bytes(float.try_into().expect("4 bytes"));
    let units = Exact::of_f32(metres)?.nearest(METRES, 1_000_000)?;
    Some(units as i32)
}
