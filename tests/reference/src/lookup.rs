//! What an image says of a point: whether questions 8 and 10 let it pass, its corrections and its
//! height, with questions 9 and 15; and how near the stop rule wants two points to each other.

use crate::{ask, Fraction, Geometry, Image, Number, Point};

impl Image<'_> {
    /// The geometry of the corrections: "Questions 8 and 10 take the correction grid".
    pub fn correction_geometry(&self) -> &Geometry {
        match self {
            Image::OneGrid(nodes) => &nodes.geometry,
            Image::TwoGrids { corrections, .. } => &corrections.geometry,
        }
    }

    /// The geometry of the heights, in edition 1 the same one.
    pub fn height_geometry(&self) -> &Geometry {
        match self {
            Image::OneGrid(nodes) => &nodes.geometry,
            Image::TwoGrids { heights, .. } => &heights.geometry,
        }
    }

    /// Is the point in the bounds of the corrections?
    pub fn in_bounds(&self, point: Point) -> bool {
        self.correction_geometry().contains(point)
    }

    /// "Under kind 2, laid out as kind 0, questions 8, 10 and 15 are no longer put".
    pub fn is_unbounded(&self) -> bool {
        match self {
            Image::OneGrid(_) => false,
            Image::TwoGrids { unbounded, .. } => *unbounded,
        }
    }

    /// Do questions 8 and 10 let the point pass, where they are put?
    pub fn reaches(&self, point: Point) -> bool {
        self.is_unbounded() || self.in_bounds(point)
    }

    /// The exact corrections at a point: 8 if the image does not reach it; 9 if its cell has an
    /// unfit node, in edition 1 also by its height, in edition 2 by its corrections alone.
    pub fn exact_corrections(&self, point: Point) -> Result<[Fraction; 2], Number> {
        ask(self.reaches(point), 8)?;
        if !self.in_bounds(point) {
            // "The correction is zero outside". No cell is used there.
            return Ok([Fraction::new(0, 1); 2]);
        }
        match self {
            Image::OneGrid(nodes) => {
                let [latitude, longitude, _] = nodes.exact_values(point)?;
                Ok([latitude, longitude])
            }
            // "9 asks its cells for corrections". "A lookup hands back the row bytes of either the
            // dense or the coarse nodes, the dense ones on the dense bounds too."
            Image::TwoGrids {
                corrections, dense, ..
            } => {
                let dense_there = dense.as_ref().filter(|it| it.geometry.contains(point));
                dense_there.unwrap_or(corrections).exact_values(point)
            }
        }
    }

    /// The exact quasi-geoid height at a point. In edition 1: 8 if it is not in the bounds, 9 if
    /// its cell has an unfit node. In edition 2: 15, then 9; under kind 2 none where 15 would be.
    pub fn exact_height(&self, point: Point) -> Result<Option<Fraction>, Number> {
        match self {
            Image::OneGrid(nodes) => {
                ask(self.in_bounds(point), 8)?;
                let [_, _, height] = nodes.exact_values(point)?;
                Ok(Some(height))
            }
            Image::TwoGrids { heights, .. } => {
                if !heights.geometry.contains(point) {
                    // "Refusal 15 …: the Bessel point is off the height grid."
                    ask(self.is_unbounded(), 15)?;
                    return Ok(None);
                }
                // "and, after 15, the height cell for heights."
                let [height] = heights.exact_values(point)?;
                Ok(Some(height))
            }
        }
    }

    /// "At most 1 nd"; with a dense grid "the stop rule then uses 3 nd".
    pub fn stop_distance(&self) -> i128 {
        match self {
            Image::TwoGrids { dense: Some(_), .. } => 3,
            _ => 1,
        }
    }

    /// "The value is the exact value plus one half, rounded down": both corrections at a point.
    pub fn corrections(&self, point: Point) -> Result<[i128; 2], Number> {
        let exact = self.exact_corrections(point)?;
        Ok(exact.map(Fraction::plus_half_rounded_down))
    }

    /// The quasi-geoid height at a point, likewise, if it has one.
    pub fn height(&self, point: Point) -> Result<Option<i128>, Number> {
        let exact = self.exact_height(point)?;
        Ok(exact.map(Fraction::plus_half_rounded_down))
    }
}
