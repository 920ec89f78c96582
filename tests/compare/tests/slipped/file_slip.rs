//! The slips of the conversion of a file, whatever its grids.

use super::Slip;
use compare::{Cause, Format};

/// The slips of the conversion of a file.
#[derive(Clone, Copy, PartialEq, Eq)]
pub enum FileSlip {
    /// None: the conversion is then another way to say the reference's.
    None,
    /// One half is added, and the sum cut toward zero.
    RoundedTowardZero,
    /// A half goes away from zero.
    HalfAwayFromZero,
    /// A half goes to the even number.
    HalfToEven,
    /// A half goes down.
    HalfDownward,
    /// No half is added.
    RoundedDown,
    /// The sign is not read.
    SignLost,
    /// An exponent without a bit set is refused.
    SubnormalRefused,
    /// A shift is taken by the last six bits of its count, as processors do: floats that are very
    /// small become large.
    ShiftCutTo6Bits,
    /// What is not a number is 0.
    NoNumberIsZero,
    /// Infinities are 0.
    InfinityIsZero,
    /// The angle is multiplied as an f64.
    DoubleArithmetic,
    /// The node's value is multiplied as an f32.
    SingleArithmetic,
    /// The headers' numbers are read in the other byte order.
    HeadersReversed,
    /// The nodes' floats are read in the other byte order.
    NodesReversed,
    /// The buffer gets big-endian numbers.
    BigEndianBuffer,
    SpacingsSwapped,
    /// The northern row comes first in the buffer.
    NorthFirst,
    /// Rows are written until one is refused.
    RowsWrittenAtOnce,
    /// The geometry is written before the nodes are asked.
    GeometryWrittenBeforeNodes,
    /// The geometry is cleared before the first question.
    GeometryCleared,
    /// One byte of the file is written.
    FileWritten,
    /// A byte behind the file's end is let pass.
    LongerFileTaken,
    /// A buffer with room for one byte more is taken.
    LongerBufferTaken,
    /// Values are not refused by their limit, but cut to it.
    ValuesCutToTheLimit,
    /// The limit of values is itself refused.
    LimitRefused,
    /// The last node is not asked.
    LastNodeNotAsked,
    /// The nodes' refusal comes before the file's.
    NodesFirst,
    /// A file that is refused for this alone gets 0.
    NotAsked(Cause),
    /// In VDatum files.
    RowsAndColumnsSwapped,
    SouthAndWestSwapped,
    /// The limit is asked of the exact height, not of the rounded one. No shift shows it: the first
    /// f32 past 36 arcseconds is past the limit once rounded, too.
    LimitBeforeRounding,
    /// In NTv2 files: longitudes and their shifts are rounded, and then their sign is turned.
    TurnedAfterRounding,
    /// Longitudes and their shifts keep their sign.
    NotTurned,
    /// A row's nodes stay in the file's order.
    NodesFromTheWest,
    EastAndWestSwapped,
    /// The first accuracy is taken for the longitude shift.
    AccuracyForShift,
    /// The buffer gets the longitude correction first.
    LongitudeFirst,
    /// Rows are counted by the longitude spacing.
    RowsByTheColumnSpacing,
    /// A label may be filled with zeros.
    FillingNotAsked,
    /// A count is read with the four bytes behind it.
    LongCounts,
}

impl FileSlip {
    /// The formats of files that show it.
    pub fn formats(self) -> &'static [Format] {
        match self {
            FileSlip::RowsAndColumnsSwapped
            | FileSlip::SouthAndWestSwapped
            | FileSlip::LimitBeforeRounding => &[Format::Vdatum],
            FileSlip::TurnedAfterRounding
            | FileSlip::NotTurned
            | FileSlip::NodesFromTheWest
            | FileSlip::EastAndWestSwapped
            | FileSlip::AccuracyForShift
            | FileSlip::LongitudeFirst
            | FileSlip::RowsByTheColumnSpacing
            | FileSlip::FillingNotAsked
            | FileSlip::LongCounts => &[Format::Ntv2],
            _ => &Format::ALL,
        }
    }
}

impl From<FileSlip> for Slip {
    fn from(slip: FileSlip) -> Slip {
        Slip::Files(slip)
    }
}
