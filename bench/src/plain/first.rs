//! Edition 1: the three values together in a node.

use super::fix::{convert_all, judge_fix, Values};
use super::nodes::{Nodes, Point};
use super::trailer::{counts_fit, spacings_fit, Trailer};
use super::{found, Number};
use crate::Way;

/// An opened image.
type Opened<'a> = Nodes<'a, 3>;

/// The values' places in a node.
const LATITUDE: usize = 0;
const LONGITUDE: usize = 1;
const HEIGHT: usize = 2;

// A function of its own, so that the other edition's code does not bear on its speed.
#[inline(never)]
pub fn list(way: Way, image: &[u8], fixes: &[i64], answers: &mut [i64]) -> Number {
    let grid = match open(image) {
        Ok(grid) => grid,
        Err(number) => return number,
    };
    convert_all(fixes, answers, |point, height| match way {
        Way::Out => out(&grid, point, height),
        Way::Back => back(&grid, point, height),
    })
}

fn out(grid: &Opened, p: Point, height: i64) -> Result<Values, Number> {
    judge_fix(p, height, 100_000_000)?;
    grid.judge_bounds(p, 8)?;
    let mut last = p;
    for count in 1..=5 {
        let cell = grid.cell(last)?;
        let next = Point {
            latitude: p.latitude - cell.value(LATITUDE),
            longitude: p.longitude - cell.value(LONGITUDE),
        };
        grid.judge_bounds(next, 10)?;
        let north = (next.latitude - last.latitude).abs();
        let east = (next.longitude - last.longitude).abs();
        if north <= 1 && east <= 1 {
            let height = height - grid.cell(next)?.value(HEIGHT);
            return Ok([next.latitude, next.longitude, height, count, 0]);
        }
        last = next;
    }
    Err(11)
}

fn back(grid: &Opened, q: Point, height: i64) -> Result<Values, Number> {
    judge_fix(q, height, 110_000_000)?;
    grid.judge_bounds(q, 8)?;
    let cell = grid.cell(q)?;
    let latitude = q.latitude + cell.value(LATITUDE);
    let longitude = q.longitude + cell.value(LONGITUDE);
    Ok([latitude, longitude, height + cell.value(HEIGHT), 1, 0])
}

// As above.
#[inline(never)]
pub fn grid_check(image: &[u8], findings: &mut [i64; 6]) -> Number {
    found(findings, open(image).and_then(|grid| check(&grid)))
}

/// Questions 9 and 12 over all nodes.
fn check(grid: &Opened) -> Result<[i64; 6], Number> {
    let steps = grid.steps()?;
    grid.judge_slopes(&steps)?;
    let [[a, b], [c, d], [e, f]] = steps;
    Ok([a, b, c, d, e, f])
}

/// Questions 1 to 6.
fn open(image: &[u8]) -> Result<Opened<'_>, Number> {
    let Some(first) = image.len().checked_sub(40) else {
        return Err(1);
    };
    let trailer = Trailer(&image[first..]);
    let (rows, columns) = (trailer.short(24), trailer.short(28));
    if trailer.short(36) != 1 {
        return Err(2);
    }
    if !counts_fit(&trailer, 0) {
        return Err(3);
    }
    if !spacings_fit(&trailer, 0) {
        return Err(4);
    }
    let (latitude, longitude) = trailer.axes(0).ok_or(5)?;
    let back = 12 * rows as usize * columns as usize + 40;
    if trailer.short(32) as usize != back || back > image.len() {
        return Err(6);
    }
    let nodes = &image[image.len() - back..first];
    Ok(Opened {
        nodes,
        latitude,
        longitude,
    })
}
