//! The same for kind 2: points in the bounds of either grid and outside, on their bounds and 1 nd
//! beside them, at 90 and 180 degrees and past them, ways out across the bounds at every count,
//! every number that a fix can get and no other, and border nodes that give 22 alone and beside 9
//! and 12.

mod border;
mod kinds;
mod limits;
mod ways;

use compare::Stream;
use reference::{open_image, Grid, Image};

const STREAM: Stream = Stream::KindTwo;

/// The two grids of an image that opens as kind 2.
fn unbounded_grids(bytes: &[u8]) -> Option<(Grid<'_, 2>, Grid<'_, 1>)> {
    match open_image(bytes) {
        Ok(Image::TwoGrids {
            corrections,
            heights,
            unbounded: true,
            ..
        }) => Some((corrections, heights)),
        _ => None,
    }
}
