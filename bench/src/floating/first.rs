//! Edition 1: the three values together in a node.

use super::nodes::{Nodes, Trailer};
use super::{convert_all, nearest};
use crate::Way;

type Grid<'a> = Nodes<'a, 12>;

/// The values' places in a node.
const LATITUDE: usize = 0;
const LONGITUDE: usize = 4;
const HEIGHT: usize = 8;

// A function of its own, so that the other edition's code does not bear on its speed.
#[inline(never)]
pub fn list(way: Way, image: &[u8], fixes: &[i64], answers: &mut [i64]) -> i64 {
    let trailer = Trailer::of(image, 40);
    let grid = Nodes::open(image, &trailer, 0, trailer.short(32));
    convert_all(fixes, answers, |latitude, longitude, height| match way {
        Way::Out => out(&grid, latitude, longitude, height),
        Way::Back => back(&grid, latitude, longitude, height),
    })
}

/// At most five evaluations; the fifth's point is the answer, settled or not.
fn out(grid: &Grid, latitude: i64, longitude: i64, height: i64) -> [i64; 5] {
    let mut last = [0.0; 2];
    let mut count = 0;
    let mut place = grid.place(latitude, longitude);
    loop {
        let shift = [grid.value(&place, LATITUDE), grid.value(&place, LONGITUDE)];
        count += 1;
        let (north, east) = (latitude - nearest(shift[0]), longitude - nearest(shift[1]));
        place = grid.place(north, east);
        let settled = (shift[0] - last[0]).abs() <= 1.0 && (shift[1] - last[1]).abs() <= 1.0;
        if settled || count == 5 {
            let geoid = nearest(grid.value(&place, HEIGHT));
            return [north, east, height - geoid, count, 0];
        }
        last = shift;
    }
}

fn back(grid: &Grid, latitude: i64, longitude: i64, height: i64) -> [i64; 5] {
    let place = grid.place(latitude, longitude);
    let [north, east, up] = [LATITUDE, LONGITUDE, HEIGHT].map(|it| nearest(grid.value(&place, it)));
    [latitude + north, longitude + east, height + up, 1, 0]
}
