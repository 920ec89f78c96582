//! The independent reference: document 01, with notes 1, 2, 4 to 6 and 8 of document 02, said
//! once more, over whole-number fractions.
//!
//! It shares no code and no constants with `crates/`. It is meant to be read beside the papers,
//! not to be fast. Every public function answers either its values or the papers' number.

mod check;
mod dense;
mod files;
mod float;
mod fraction;
mod geometry;
mod grid;
mod image;
mod lists;
mod lookup;
mod notation;
mod ntv2;
mod ntv2_file;
mod numbers;
mod place;
mod planes;
mod trailer;
mod vdatum;
mod ways;

pub use check::grid_check;
pub use files::{Converted, Nearest};
pub use float::{is_negative, nearest, turned, Exact, Width, DOUBLE, SINGLE};
pub use fraction::Fraction;
pub use geometry::Geometry;
pub use grid::{Arrangement, Grid};
pub use image::{open_image, write_dense, write_image, write_planes, write_two_grids, Image};
pub use lists::{convert_list, list_back, list_out};
pub use notation::{read_notation, write_notation, Axis, Notation};
pub use ntv2::{convert_ntv2, corrections_from_ntv2, FROM_ARCSECONDS};
pub use ntv2_file::{
    shift_nodes, text, FileGrid, Labels, Ntv2File, Record, Records, ShiftNode, END_LABEL,
    GRID_LABELS, OVERVIEW_LABELS,
};
pub use place::{Place, Point};
pub use planes::{arrange, nodes_from_planes, planes_from_nodes};
pub use trailer::{DenseTrailer, Trailer, TwoGridTrailer};
pub use vdatum::{
    convert_vdatum, height_bits, heights_from_vdatum, FileHeader, FROM_DEGREES, FROM_METRES,
};
pub use ways::{
    fix_questions, way_back, way_out, Answer, Fix, BACK_HEIGHT_LIMIT, OUT_HEIGHT_LIMIT,
};

/// The number of a question whose answer is no, 1 to 22.
pub type Number = i64;

/// "An nd is 10^-9 degree": a whole degree in nd.
pub const DEGREE: i128 = 1_000_000_000;

/// "A "no" gives the number."
pub(crate) fn ask(yes: bool, number: Number) -> Result<(), Number> {
    if yes {
        Ok(())
    } else {
        Err(number)
    }
}

/// Is the value no further than the limit from zero?
pub(crate) fn within(value: i128, limit: i128) -> bool {
    -limit <= value && value <= limit
}
