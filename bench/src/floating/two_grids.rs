//! What images of edition 2 share, whatever the kind: the heights on a grid of their own, and the ways.

use super::nodes::{Nodes, Trailer};
use super::{convert_all, nearest};
use crate::Way;

/// What a way asks of an opened image.
pub trait Source {
    /// The stop rule's distance.
    const STOP: f64;

    fn corrections(&self, latitude: i64, longitude: i64) -> [f64; 2];

    /// The quasi-geoid height, if there is one.
    fn height(&self, latitude: i64, longitude: i64) -> Option<i64>;

    /// An answer by it, or without a height 0 and 100.
    #[inline]
    fn answer(&self, [north, east]: [i64; 2], by: impl Fn(i64) -> i64, count: i64) -> [i64; 5] {
        match self.height(north, east) {
            Some(geoid) => [north, east, by(geoid), count, 0],
            None => [north, east, 0, count, 100],
        }
    }
}

/// The corrections' places in a node.
const LATITUDE: usize = 0;
const LONGITUDE: usize = 4;

/// A list over an opened image.
#[inline]
pub fn list(source: &impl Source, way: Way, fixes: &[i64], answers: &mut [i64]) -> i64 {
    convert_all(fixes, answers, |latitude, longitude, height| match way {
        Way::Out => out(source, latitude, longitude, height),
        Way::Back => back(source, latitude, longitude, height),
    })
}

/// At most five evaluations; the fifth's point is the answer, settled or not.
fn out<S: Source>(source: &S, latitude: i64, longitude: i64, height: i64) -> [i64; 5] {
    let mut last = [0.0; 2];
    let mut count = 0;
    let (mut north, mut east) = (latitude, longitude);
    loop {
        let shift = source.corrections(north, east);
        count += 1;
        (north, east) = (latitude - nearest(shift[0]), longitude - nearest(shift[1]));
        let settled =
            (shift[0] - last[0]).abs() <= S::STOP && (shift[1] - last[1]).abs() <= S::STOP;
        if settled || count == 5 {
            return source.answer([north, east], |geoid| height - geoid, count);
        }
        last = shift;
    }
}

fn back(source: &impl Source, latitude: i64, longitude: i64, height: i64) -> [i64; 5] {
    let [north, east] = source.corrections(latitude, longitude).map(nearest);
    let mut answer = source.answer([latitude, longitude], |geoid| height + geoid, 1);
    answer[0] += north;
    answer[1] += east;
    answer
}

/// The corrections of a grid at a point.
#[inline]
pub fn corrections_of(nodes: &Nodes<8>, latitude: i64, longitude: i64) -> [f64; 2] {
    let place = nodes.place(latitude, longitude);
    [LATITUDE, LONGITUDE].map(|it| nodes.value(&place, it))
}

/// The height at a point.
#[inline]
pub fn height_of(nodes: &Nodes<4>, latitude: i64, longitude: i64) -> i64 {
    let place = nodes.place(latitude, longitude);
    nearest(nodes.value(&place, 0))
}

/// The corrections, so many bytes apart, and the heights by the trailer at the image's end.
pub fn grids<'a, const BYTES: usize>(
    image: &'a [u8],
    trailer: &Trailer,
) -> (Nodes<'a, BYTES>, Nodes<'a, 4>) {
    (
        Nodes::open(image, trailer, 0, trailer.short(64)),
        Nodes::open(image, trailer, 32, trailer.short(68)),
    )
}
