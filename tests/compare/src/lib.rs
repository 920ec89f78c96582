//! The comparison: many made-up calls, each performed by a converter and by the reference, whose
//! outcomes must be the same in every number written.
//!
//! A call is made from its stream, a seed and an index alone, so that any of them can be replayed.

mod arranged;
mod call;
pub mod cases;
mod causes;
mod command;
mod comparison;
mod converter;
mod coverage;
mod file;
mod file_grids;
mod lent;
mod library;
mod pages;
mod random;
mod report;
mod rounded_axis;
mod steps;
mod stream;
mod unread;
mod why;

pub use arranged::{Arranged, Event};
pub use binding::Way;
pub use call::{Arranging, Call, List, Outcome};
pub use causes::{Cause, NotFinite, Reason, Side};
pub use command::{parse, Command, USAGE};
pub use comparison::{compare, compare_case, Case, Difference};
pub use converter::{geometry_numbers, Converter, FileRoom, Reference};
pub use coverage::{Coverage, FULL_RUN};
pub use file::{File, Format, Layout};
pub use file_grids::{FileAxis, Float, GridOfFile, Part};
pub use library::Library;
pub use random::Random;
pub use report::SHOWN_ROWS;
pub use steps::{
    cell_of, nearest_point, points_on_the_way, points_until_the_stop, stop_rule_holds,
};
pub use stream::Stream;
pub use why::causes;
