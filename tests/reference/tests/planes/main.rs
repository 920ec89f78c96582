//! Kind 3 of edition 2, document 02's note 8, latitudes first, then longitudes: an image spelled in
//! bytes in both arrangements, figures by hand, both conversions there and back, and their refusals
//! in their order.

#[path = "../answers/mod.rs"]
mod answers;
#[path = "../common/mod.rs"]
mod common;
mod figures;
#[path = "../heights/mod.rs"]
mod heights;
mod images;
mod opening;
mod refusals;
mod spelled;
