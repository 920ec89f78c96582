//! VDatum files: document 02's note 2.

use crate::files::{Converted, Nearest};
use crate::float::{nearest, DOUBLE, SINGLE};
use crate::grid::HEIGHT_LIMIT;
use crate::{ask, within, Fraction, Geometry, Number, DEGREE};

const HEADER_BYTES: usize = 40;
const NODE_BYTES: i128 = 4;

/// "An nd is 10^-9 degree".
pub const FROM_DEGREES: Fraction = Fraction::new(DEGREE, 1);
/// "A unit of height is 0.0001 m".
pub const FROM_METRES: Fraction = Fraction::new(10_000, 1);

/// "Southern latitude, western longitude, latitude spacing, longitude spacing as f64 degrees, rows
/// and columns as i32", "big-endian". The floats are given by their bits.
#[derive(Clone, Copy, Debug, PartialEq, Eq)]
pub struct FileHeader {
    pub south: u64,
    pub west: u64,
    pub latitude_spacing: u64,
    pub longitude_spacing: u64,
    pub rows: i32,
    pub columns: i32,
}

impl FileHeader {
    /// The header that a file begins with, if it is long enough to have one.
    pub fn read(file: &[u8]) -> Option<FileHeader> {
        let bytes = file.first_chunk::<HEADER_BYTES>()?;
        let double = |at| u64::from_be_bytes(std::array::from_fn(|byte| bytes[at + byte]));
        let count = |at| i32::from_be_bytes(std::array::from_fn(|byte| bytes[at + byte]));
        Some(FileHeader {
            south: double(0),
            west: double(8),
            latitude_spacing: double(16),
            longitude_spacing: double(24),
            rows: count(32),
            columns: count(36),
        })
    }

    /// The header's 40 bytes.
    pub fn write(&self) -> Vec<u8> {
        let angles = [self.south, self.west];
        let spacings = [self.latitude_spacing, self.longitude_spacing];
        let doubles = angles.into_iter().chain(spacings);
        let counts = [self.rows, self.columns];
        doubles
            .flat_map(u64::to_be_bytes)
            .chain(counts.into_iter().flat_map(i32::to_be_bytes))
            .collect()
    }

    /// "Geometry … becomes the nearest nd": nothing if a number is not finite or outside questions
    /// 3 to 5.
    fn geometry(&self, nearest: &impl Nearest) -> Option<Geometry> {
        let axis = |bound, spacing, lines: i32| {
            let nd = |bits| nearest(DOUBLE, bits, FROM_DEGREES);
            Some([nd(bound)?, nd(spacing)?, lines.into()])
        };
        Geometry::within_questions_3_to_5(
            axis(self.south, self.latitude_spacing, self.rows)?,
            axis(self.west, self.longitude_spacing, self.columns)?,
        )
    }
}

/// A VDatum file to the height nodes of an image, for a lent buffer of so many bytes.
pub fn heights_from_vdatum(file: &[u8], buffer_length: usize) -> Result<Converted, Number> {
    convert_vdatum(file, buffer_length, nearest)
}

/// The same with any way to the nearest whole number.
pub fn convert_vdatum(
    file: &[u8],
    buffer_length: usize,
    nearest: impl Nearest,
) -> Result<Converted, Number> {
    let geometry = file_geometry(file, buffer_length, &nearest)?;
    let nodes = node_heights(file, &nearest)?;
    let nodes = nodes.into_iter().flat_map(i32::to_le_bytes).collect();
    Ok(Converted { geometry, nodes })
}

/// "Refusal 16, first: a header number not finite or, once rounded, outside questions 3 to 5, or
/// file or buffer not of the exact length." Else the geometry.
fn file_geometry(
    file: &[u8],
    buffer_length: usize,
    nearest: &impl Nearest,
) -> Result<Geometry, Number> {
    let header = FileHeader::read(file).ok_or(16)?;
    let geometry = header.geometry(nearest).ok_or(16)?;
    let node_bytes = NODE_BYTES * geometry.nodes();
    ask(file.len() as i128 == HEADER_BYTES as i128 + node_bytes, 16)?;
    ask(buffer_length as i128 == node_bytes, 16)?;
    Ok(geometry)
}

/// "Then f32 metres from the south-west, west to east": an image has its nodes in this order too.
/// "Refusal 17, second: a node not finite, or a rounded height beyond its limit." Else the heights.
fn node_heights(file: &[u8], nearest: &impl Nearest) -> Result<Vec<i32>, Number> {
    height_bits(file)
        .map(|bits| {
            let height = nearest(SINGLE, bits.into(), FROM_METRES).ok_or(17)?;
            ask(within(height, HEIGHT_LIMIT), 17)?;
            Ok(height as i32)
        })
        .collect()
}

/// The bits of all whole nodes behind the header.
pub fn height_bits(file: &[u8]) -> impl DoubleEndedIterator<Item = u32> + '_ {
    let nodes = file.get(HEADER_BYTES..).unwrap_or_default();
    nodes
        .chunks_exact(NODE_BYTES as usize)
        .map(|node| u32::from_be_bytes(node.try_into().expect("four bytes")))
}
