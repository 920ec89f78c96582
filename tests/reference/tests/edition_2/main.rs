//! Edition 2 of the image, document 02's note 1: figures by hand, the questions' limits and their
//! order across the two grids.

#[path = "../answers/mod.rs"]
mod answers;
mod checks;
#[path = "../common/mod.rs"]
mod common;
mod figures;
#[path = "../heights/mod.rs"]
mod heights;
mod images;
#[path = "../limits/mod.rs"]
mod limits;
mod opening;
mod ways;
