//! The kinds of files that are converted, and made-up files of each kind.

#[cfg(test)]
mod tests;

use crate::fixes::mixed;
use crate::grid::{middle_of, Geometry, CORRECTION_SPACINGS, HEIGHT_SPACINGS};
use crate::{gsb, gtx, library, plain, FileConversion};

/// The kinds of files.
#[derive(Clone, Copy, Debug, PartialEq, Eq)]
pub enum FileKind {
    /// Heights, as .gtx.
    Vdatum,
    /// Corrections, as .gsb.
    Ntv2,
}

/// What the values of a made-up file are like.
#[derive(Clone, Copy, Debug, PartialEq, Eq)]
pub enum Values {
    /// Within a small range, in steps of 0.000001, which an f32 does not hold exactly.
    National,
    /// Both signs and sizes below a limit, each of the 30 powers of two below it as often as
    /// another, and as often a subnormal float: no next one follows from those before it.
    Mixed,
}

/// Where the values of a kind's made-up files lie, in metres or seconds of arc.
struct Range {
    /// National values: the least, and so many millionths more for the largest.
    least: f64,
    millionths: u64,
    /// Mixed values are below 2 to this power.
    power: u32,
}

impl FileKind {
    pub const ALL: [FileKind; 2] = [FileKind::Vdatum, FileKind::Ntv2];

    pub fn words(self) -> &'static str {
        match self {
            FileKind::Vdatum => "VDatum",
            FileKind::Ntv2 => "NTv2",
        }
    }

    pub fn value_words(self, values: Values) -> &'static str {
        match (self, values) {
            (FileKind::Vdatum, Values::National) => "40 to 46 m",
            (FileKind::Vdatum, Values::Mixed) => "both signs and all sizes to 64 m",
            (FileKind::Ntv2, Values::National) => "3 to 4″",
            (FileKind::Ntv2, Values::Mixed) => "both signs and all sizes to 32″",
        }
    }

    /// The numbers of refusal: of the file, and of one of its values.
    pub fn numbers(self) -> [i64; 2] {
        match self {
            FileKind::Vdatum => [16, 17],
            FileKind::Ntv2 => [18, 19],
        }
    }

    /// The library's conversion and the plain implementation's.
    pub fn conversions(self) -> [FileConversion; 2] {
        match self {
            FileKind::Vdatum => [library::heights_from_vdatum, plain::heights_from_vdatum],
            FileKind::Ntv2 => [library::corrections_from_ntv2, plain::corrections_from_ntv2],
        }
    }

    /// The bytes before a file's first node.
    pub fn header_bytes(self) -> usize {
        match self {
            FileKind::Vdatum => gtx::HEADER_BYTES,
            FileKind::Ntv2 => gsb::HEADERS_BYTES,
        }
    }

    /// The bytes of the nodes that a file which is converted becomes, and of those of its subgrid.
    pub fn nodes_lengths(self, file: &[u8]) -> [usize; 2] {
        match self {
            FileKind::Vdatum => [file.len() - gtx::HEADER_BYTES, 0],
            FileKind::Ntv2 => gsb::nodes(file).map(|it| 8 * it),
        }
    }

    /// The nodes of a file that is converted, its subgrid's among them.
    pub fn nodes(self, file: &[u8]) -> usize {
        let node = match self {
            FileKind::Vdatum => 4,
            FileKind::Ntv2 => 8,
        };
        self.nodes_lengths(file).iter().sum::<usize>() / node
    }

    /// A made-up file that is converted, around 52 degrees north and 5 degrees east.
    pub fn made_up(self, values: Values, rows: u32, columns: u32) -> Vec<u8> {
        match self {
            FileKind::Vdatum => {
                let geometry = Geometry::national(HEIGHT_SPACINGS, rows, columns);
                gtx::bytes(&geometry, |row, column| self.value(values, row, column, 0))
            }
            FileKind::Ntv2 => {
                let geometry = Geometry::national(CORRECTION_SPACINGS, rows, columns);
                self.shifts_over(values, &geometry, 0)
            }
        }
    }

    /// The same file with a subgrid over the middle of its grid, and the subgrid's geometry; none
    /// of VDatum, whose files have no subgrid.
    pub fn made_up_nested(
        self,
        values: Values,
        rows: u32,
        columns: u32,
    ) -> Option<(Vec<u8>, Geometry)> {
        let subgrid = middle_of(&Geometry::national(CORRECTION_SPACINGS, rows, columns));
        (self == FileKind::Ntv2).then(|| {
            let first = self.made_up(values, rows, columns);
            let second = self.shifts_over(values, &subgrid, 2);
            (gsb::with_subgrid(first, second), subgrid)
        })
    }

    /// An NTv2 file of one grid, its values made from this number on.
    fn shifts_over(self, values: Values, geometry: &Geometry, from: u64) -> Vec<u8> {
        gsb::bytes(geometry, |row, column| {
            [from, from + 1].map(|it| self.value(values, row, column, it))
        })
    }

    /// The value of a row and a column with a number below 4.
    fn value(self, values: Values, row: u32, column: u32, number: u64) -> f32 {
        let index = u64::from(row) << 32 | u64::from(column);
        values.float(&self.range(), index | number << 16)
    }

    fn range(self) -> Range {
        match self {
            FileKind::Vdatum => Range {
                least: 40.0,
                millionths: 6_000_000,
                power: 6,
            },
            FileKind::Ntv2 => Range {
                least: 3.0,
                millionths: 1_000_000,
                power: 5,
            },
        }
    }
}

impl Values {
    pub const ALL: [Values; 2] = [Values::National, Values::Mixed];

    /// The value of a range with an index.
    fn float(self, range: &Range, index: u64) -> f32 {
        let number = mixed(index);
        match self {
            Values::National => {
                (range.least + (number % (range.millionths + 1)) as f64 / 1e6) as f32
            }
            Values::Mixed => {
                let fraction = number as u32 & 0x7F_FFFF;
                let sign = (number >> 31) as u32 & 1;
                let exponent = mixed_exponent(range.power, number >> 32);
                f32::from_bits(sign << 31 | exponent << 23 | fraction)
            }
        }
    }
}

/// The exponent field of an f32: 0, which subnormal floats have, or that of one of the 30 powers of
/// two below 2 to the given power.
fn mixed_exponent(below: u32, number: u64) -> u32 {
    match (number % 31) as u32 {
        0 => 0,
        power => 127 + below - 31 + power,
    }
}
