//! What images of edition 2 share, whatever the kind: their two grids, and the ways over them.

use super::fix::{convert_all, judge_fix, Values};
use super::nodes::{Heights, Nodes, Point};
use super::slopes::Steps;
use super::trailer::{Axes, Trailer};
use super::Number;
use crate::Way;

/// The corrections and the heights of an opened image.
pub struct TwoGrids<'a, Corrections = Nodes<'a, 2>> {
    pub corrections: Corrections,
    pub heights: Heights<'a>,
}

/// Corrections of one grid, in nodes or otherwise.
pub trait Corrections {
    /// Whether a point is in the bounds.
    fn holds(&self, p: Point) -> bool;

    /// Both at a point in the bounds, after question 9 of their cell.
    fn at(&self, p: Point) -> Result<[i64; 2], Number>;

    /// Question 9 of all, and the largest steps of both.
    fn steps(&self) -> Result<[Steps; 2], Number>;

    /// Question 12 of both.
    fn judge_slopes(&self, steps: &[Steps; 2]) -> Result<(), Number>;
}

/// What a way asks of an opened image.
pub trait Source {
    type Corrections: Corrections;
    /// The stop rule's distance.
    const STOP: i64;
    /// Are questions 8, 10 and 15 put?
    const BOUNDED: bool;

    fn two_grids(&self) -> &TwoGrids<'_, Self::Corrections>;

    /// The corrections at a point, in their bounds where these are asked for, after question 9 of
    /// their cell.
    fn corrections(&self, p: Point) -> Result<[i64; 2], Number>;

    /// The height of an answer, by the quasi-geoid height at its Bessel point, with 0; or without
    /// one 0 and 100.
    #[inline]
    fn height(&self, p: Point, by: impl Fn(i64) -> i64) -> Result<[i64; 2], Number> {
        let heights = &self.two_grids().heights;
        if heights.holds(p) {
            Ok([by(heights.cell(p)?.value(0)), 0])
        } else if Self::BOUNDED {
            Err(15)
        } else {
            Ok([0, 100])
        }
    }
}

/// A list over an opened image, or the number that it got.
#[inline]
pub fn list(
    opened: Result<impl Source, Number>,
    way: Way,
    fixes: &[i64],
    answers: &mut [i64],
) -> Number {
    let source = match opened {
        Ok(source) => source,
        Err(number) => return number,
    };
    convert_all(fixes, answers, |point, height| match way {
        Way::Out => out(&source, point, height),
        Way::Back => back(&source, point, height),
    })
}

fn out<S: Source>(source: &S, p: Point, height: i64) -> Result<Values, Number> {
    let grid = source.two_grids();
    judge_fix(p, height, 100_000_000)?;
    if S::BOUNDED && !grid.corrections.holds(p) {
        return Err(8);
    }
    let mut last = p;
    for count in 1..=5 {
        let [north, east] = source.corrections(last)?;
        let next = Point {
            latitude: p.latitude - north,
            longitude: p.longitude - east,
        };
        if S::BOUNDED && !grid.corrections.holds(next) {
            return Err(10);
        }
        let north = (next.latitude - last.latitude).abs();
        let east = (next.longitude - last.longitude).abs();
        if north <= S::STOP && east <= S::STOP {
            let [height, number] = source.height(next, |it| height - it)?;
            return Ok([next.latitude, next.longitude, height, count, number]);
        }
        last = next;
    }
    Err(11)
}

fn back<S: Source>(source: &S, q: Point, height: i64) -> Result<Values, Number> {
    judge_fix(q, height, 110_000_000)?;
    if S::BOUNDED && !source.two_grids().corrections.holds(q) {
        return Err(8);
    }
    let [north, east] = source.corrections(q)?;
    let [height, number] = source.height(q, |it| height + it)?;
    Ok([q.latitude + north, q.longitude + east, height, 1, number])
}

impl Corrections for Nodes<'_, 2> {
    #[inline]
    fn holds(&self, p: Point) -> bool {
        Nodes::holds(self, p)
    }

    #[inline]
    fn at(&self, p: Point) -> Result<[i64; 2], Number> {
        let cell = self.cell(p)?;
        Ok([cell.value(0), cell.value(1)])
    }

    fn steps(&self) -> Result<[Steps; 2], Number> {
        Nodes::steps(self)
    }

    fn judge_slopes(&self, steps: &[Steps; 2]) -> Result<(), Number> {
        Nodes::judge_slopes(self, steps)
    }
}

impl<'a> TwoGrids<'a> {
    /// Question 6 of both, by the trailer at the image's end.
    pub fn open(
        image: &'a [u8],
        trailer: &Trailer,
        (latitude, longitude): Axes,
        (height_latitude, height_longitude): Axes,
    ) -> Result<TwoGrids<'a>, Number> {
        let end = image.len() - 80;
        let height_back = 4 * height_latitude.count * height_longitude.count + 80;
        let back = 8 * latitude.count * longitude.count + height_back;
        let backs = [trailer.short(64) as usize, trailer.short(68) as usize];
        if backs != [back, height_back] || back > image.len() {
            return Err(6);
        }
        let (first, first_height) = (image.len() - back, image.len() - height_back);
        Ok(TwoGrids {
            corrections: Nodes {
                nodes: &image[first..first_height],
                latitude,
                longitude,
            },
            heights: Heights {
                nodes: &image[first_height..end],
                latitude: height_latitude,
                longitude: height_longitude,
            },
        })
    }

    /// The bytes from the first node to the image's end.
    pub fn length(&self) -> usize {
        self.corrections.nodes.len() + self.heights.nodes.len() + 80
    }
}

impl<C: Corrections> TwoGrids<'_, C> {
    /// Question 9 over the nodes of both grids, and the largest steps.
    pub fn steps(&self) -> Result<([Steps; 2], [Steps; 1]), Number> {
        Ok((self.corrections.steps()?, self.heights.steps()?))
    }

    /// Question 12 with each grid's own spacings: the findings.
    pub fn judge_slopes(
        &self,
        (steps, height_steps): ([Steps; 2], [Steps; 1]),
    ) -> Result<[i64; 6], Number> {
        self.corrections.judge_slopes(&steps)?;
        self.heights.judge_slopes(&height_steps)?;
        let ([[a, b], [c, d]], [[e, f]]) = (steps, height_steps);
        Ok([a, b, c, d, e, f])
    }
}
