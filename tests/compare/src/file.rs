//! The grid files that are converted, and what the two formats are like.

use crate::Float;
use reference::{
    corrections_from_ntv2, heights_from_vdatum, nearest, Converted, Fraction, Number,
    FROM_ARCSECONDS, FROM_DEGREES, FROM_METRES, SINGLE,
};
use std::fmt;

/// A format of grid files.
#[derive(Clone, Copy, Debug, PartialEq, Eq)]
pub enum Format {
    /// Heights (document 02's note 2).
    Vdatum,
    /// Corrections (notes 4 and 5).
    Ntv2,
}

/// What files of a format have in common.
pub struct Layout {
    /// The bytes before the first node and behind the last one.
    pub headers: usize,
    pub end: usize,
    /// The bytes of a node in the file and in the buffer.
    pub node: usize,
    pub buffer_node: usize,
    /// The numbers of the geometry that is handed back.
    pub geometry_numbers: usize,
    /// The names of the bounds and spacings, and their scale.
    pub angles: &'static [&'static str],
    pub angle_scale: Fraction,
    /// The names of a node's values, their scale, and how far from zero they may be.
    pub values: &'static [&'static str],
    pub value_scale: Fraction,
    pub value_limit: i128,
    /// The refusal of the file, and that of a node.
    pub refusals: [Number; 2],
}

const VDATUM: Layout = Layout {
    headers: 40,
    end: 0,
    node: 4,
    buffer_node: 4,
    geometry_numbers: 6,
    angles: &["south", "west", "latitude spacing", "longitude spacing"],
    angle_scale: FROM_DEGREES,
    values: &["height"],
    value_scale: FROM_METRES,
    value_limit: 1_000_000,
    refusals: [16, 17],
};

const NTV2: Layout = Layout {
    headers: 352,
    end: 16,
    node: 16,
    buffer_node: 8,
    geometry_numbers: 12,
    angles: &["S_LAT", "N_LAT", "E_LONG", "W_LONG", "LAT_INC", "LONG_INC"],
    angle_scale: FROM_ARCSECONDS,
    values: &["latitude shift", "longitude shift"],
    value_scale: FROM_ARCSECONDS,
    value_limit: 10_000_000,
    refusals: [18, 19],
};

impl Layout {
    /// Is a value of a node neither not finite nor, once rounded, beyond its limit?
    pub fn allows(&self, value: Float) -> bool {
        let rounded = nearest(SINGLE, value.bits, self.value_scale);
        rounded.is_some_and(|it| it.abs() <= self.value_limit)
    }
}

impl Format {
    pub const ALL: [Format; 2] = [Format::Vdatum, Format::Ntv2];

    /// The format with this name.
    pub fn named(name: &str) -> Option<Format> {
        Format::ALL.into_iter().find(|it| it.to_string() == name)
    }

    pub fn layout(self) -> &'static Layout {
        match self {
            Format::Vdatum => &VDATUM,
            Format::Ntv2 => &NTV2,
        }
    }

    /// The reference's conversion, with buffers of these lengths: the file's grids. That of VDatum
    /// files is lent one buffer.
    pub fn convert(
        self,
        file: &[u8],
        buffer_lengths: [usize; 2],
    ) -> Result<Vec<Converted>, Number> {
        match self {
            Format::Vdatum => heights_from_vdatum(file, buffer_lengths[0]).map(|it| vec![it]),
            Format::Ntv2 => corrections_from_ntv2(file, buffer_lengths),
        }
    }
}

impl fmt::Display for Format {
    fn fmt(&self, to: &mut fmt::Formatter) -> fmt::Result {
        to.write_str(match self {
            Format::Vdatum => "vdatum",
            Format::Ntv2 => "ntv2",
        })
    }
}

/// What the conversion of a file is given. The second buffer, for the nodes of a subgrid, is empty
/// for VDatum files.
#[derive(Clone, Debug, PartialEq, Eq)]
pub struct File {
    pub format: Format,
    pub bytes: Vec<u8>,
    pub buffer_lengths: [usize; 2],
}

impl File {
    /// What the reference makes of it.
    pub fn converted(&self) -> Result<Vec<Converted>, Number> {
        self.format.convert(&self.bytes, self.buffer_lengths)
    }
}
