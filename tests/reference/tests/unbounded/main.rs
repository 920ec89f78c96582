//! Kind 2 of edition 2, document 02's note 6, fixes past the edge: figures by hand, points on the
//! bounds of both grids and beside them, points past 90 and 180 degrees, the questions that are
//! still put and their order, and 22.

#[path = "../answers/mod.rs"]
mod answers;
mod border;
#[path = "../common/mod.rs"]
mod common;
mod edges;
mod figures;
#[path = "../heights/mod.rs"]
mod heights;
mod images;
mod order;
mod poles;
