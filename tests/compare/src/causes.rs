//! The causes of a file's refusal: all that document 02's notes 2, 4 and 5 name.

use crate::{Format, Part};
use reference::{Axis, Number, END_LABEL, GRID_LABELS, OVERVIEW_LABELS};
use Side::{Above, Below};

/// What a float that is not finite is.
#[derive(Clone, Copy, Debug, PartialEq, Eq)]
pub enum NotFinite {
    NotANumber,
    Infinity,
    NegativeInfinity,
}

/// On which side of what is allowed a number lies.
#[derive(Clone, Copy, Debug, PartialEq, Eq)]
pub enum Side {
    Below,
    Above,
}

/// A cause of a refusal: the part of the file that has it, and the reason.
#[derive(Clone, Copy, Debug, PartialEq, Eq)]
pub struct Cause {
    pub part: Part,
    pub reason: Reason,
}

/// Why a part of a file is refused.
#[derive(Clone, Copy, Debug, PartialEq, Eq)]
pub enum Reason {
    /// The file is too short for its headers and its end; for the header of a subgrid that it says
    /// to have, and its end.
    NoHeader,
    /// NTv2: the record at this label's place has another.
    Label(&'static str),
    /// NTv2: the type.
    Type,
    /// NTv2: a count of records, of grids, or of nodes against rows and columns.
    RecordCount(&'static str, Side),
    /// NTv2: PARENT is not NONE, or a subgrid's is not the first grid's name.
    Parent,
    /// A bound or a spacing is not finite.
    AngleNotFinite(&'static str, NotFinite),
    /// Question 3, of rows (latitude) or columns.
    Count(Axis, Side),
    /// Question 3 too: a count below zero, or the higher bound below the lower one. No file has the
    /// length that such a count asks for.
    NegativeCount(Axis),
    /// Question 4.
    Spacing(Axis, Side),
    /// NTv2: the difference of the bounds is not a whole number of spacings.
    NotWhole(Axis),
    /// Question 5.
    Bound(Axis, Side),
    /// The file has its headers and its end, but not the exact length.
    FileLength(Side),
    BufferLength(Side),
    /// NTv2: a buffer for a subgrid that the file does not have.
    NoSubgrid,
    ValueNotFinite(&'static str, NotFinite),
    /// A rounded height or correction is beyond its limit.
    Value(&'static str, Side),
}

pub const SIDES: [Side; 2] = [Below, Above];
const NOT_FINITE: [NotFinite; 3] = [
    NotFinite::NotANumber,
    NotFinite::Infinity,
    NotFinite::NegativeInfinity,
];
/// NTv2's counts that do not follow from a grid, and their lowest and highest number.
pub const FIXED_COUNTS: [(&str, [i128; 2]); 3] = [
    ("NUM_OREC", [11, 11]),
    ("NUM_SREC", [11, 11]),
    ("NUM_FILE", [1, 2]),
];

impl Cause {
    /// All causes to refuse a file of a format.
    pub fn all(format: Format) -> Vec<Cause> {
        let first = first_reasons(format).into_iter().map(|reason| Cause {
            part: Part::First,
            reason,
        });
        let of_subgrid = match format {
            Format::Vdatum => Vec::new(),
            Format::Ntv2 => subgrid_reasons(),
        };
        let of_subgrid = of_subgrid.into_iter().map(|reason| Cause {
            part: Part::Subgrid,
            reason,
        });
        first.chain(of_subgrid).collect()
    }

    /// Is it a cause of the format's second refusal?
    pub fn is_of_a_node(self) -> bool {
        matches!(self.reason, Reason::ValueNotFinite(..) | Reason::Value(..))
    }

    /// The refusal of a file of the format that it is a cause of.
    pub fn number(self, format: Format) -> Number {
        format.layout().refusals[usize::from(self.is_of_a_node())]
    }
}

/// Those of a file's own and of its first grid.
fn first_reasons(format: Format) -> Vec<Reason> {
    let mut all = grid_reasons(format);
    all.extend(SIDES.map(Reason::FileLength));
    if format == Format::Ntv2 {
        all.extend(OVERVIEW_LABELS.map(Reason::Label));
        all.extend([Reason::Label(END_LABEL), Reason::Type]);
        for (label, _) in FIXED_COUNTS {
            all.extend(SIDES.map(|side| Reason::RecordCount(label, side)));
        }
    }
    all
}

/// Those of a subgrid, or of none.
fn subgrid_reasons() -> Vec<Reason> {
    let mut all = grid_reasons(Format::Ntv2);
    all.push(Reason::NoSubgrid);
    all
}

/// Those of any grid of a format.
fn grid_reasons(format: Format) -> Vec<Reason> {
    let layout = format.layout();
    let mut all = vec![Reason::NoHeader];
    for name in layout.angles {
        all.extend(NOT_FINITE.map(|it| Reason::AngleNotFinite(name, it)));
    }
    for axis in [Axis::Latitude, Axis::Longitude] {
        all.extend(SIDES.map(|side| Reason::Count(axis, side)));
        all.push(Reason::NegativeCount(axis));
        all.extend(SIDES.map(|side| Reason::Spacing(axis, side)));
        all.extend(SIDES.map(|side| Reason::Bound(axis, side)));
        all.extend((format == Format::Ntv2).then_some(Reason::NotWhole(axis)));
    }
    all.extend(SIDES.map(Reason::BufferLength));
    for name in layout.values {
        all.extend(NOT_FINITE.map(|it| Reason::ValueNotFinite(name, it)));
        all.extend(SIDES.map(|side| Reason::Value(name, side)));
    }
    if format == Format::Ntv2 {
        all.extend(GRID_LABELS.map(Reason::Label));
        all.extend(SIDES.map(|side| Reason::RecordCount("GS_COUNT", side)));
        all.push(Reason::Parent);
    }
    all
}
