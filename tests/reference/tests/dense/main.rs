//! Kind 1 of edition 2, document 02's note 5, a dense grid inside the coarse one: figures by hand,
//! where the dense nodes are used, the stop distance, the limits of 20 and 21, and the order of
//! the questions across the three grids.

mod alignment;
#[path = "../answers/mod.rs"]
mod answers;
mod border;
mod checks;
#[path = "../common/mod.rs"]
mod common;
mod corner_cell;
mod figures;
mod images;
#[path = "../limits/mod.rs"]
mod limits;
mod lookups;
mod opening;
mod order;
mod stops;
