//! NTv2 files, document 02's notes 4 and 5: the records and their labels, the limits of every bound
//! and spacing, the shifts, the subgrid and its parent, what is not read, and the order of the two
//! refusals.

mod files;
mod geometry;
mod lengths;
mod records;
mod shifts;
mod subgrid;
