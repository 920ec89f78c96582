//! The same for kind 1: the dense grid lies in the coarse one in every way that question 20 allows
//! and does not, its border differs as far as question 21 allows and just further, ways out jump
//! across it at every count, and every field of the 36 bytes is broken.

mod alignment;
mod border;
mod damage;
mod grids;
mod ways;

use crate::made_up::images;
use crate::nested::grids_of;
use compare::Stream;
use reference::{open_image, Grid, Image, Point};

const STREAM: Stream = Stream::KindOne;

/// Is the point in the dense bounds? Nothing if the image has no dense grid.
fn is_dense(image: &Image, point: Point) -> Option<bool> {
    let (_, dense) = grids_of(image)?;
    Some(dense.geometry.contains(point))
}

/// Does something for the coarse and the dense grid of every image that opens as kind 1.
fn for_each_nested(mut action: impl FnMut(&Grid<2>, &Grid<2>)) {
    for image in images(STREAM) {
        let opened = open_image(&image).ok();
        if let Some((coarse, dense)) = opened.and_then(|it| grids_of(&it)) {
            action(&coarse, &dense);
        }
    }
}
