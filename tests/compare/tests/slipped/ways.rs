//! The two ways with a slip.

use super::{Slip, Slipped, TwoGridSlip, UnboundedSlip};
use compare::stop_rule_holds;
use reference::{
    fix_questions, Answer, Fix, Fraction, Image, Number, Point, BACK_HEIGHT_LIMIT, OUT_HEIGHT_LIMIT,
};

impl Slipped {
    pub fn way_back(&self, image: &Image, fix: Fix) -> Result<Answer, Number> {
        self.questions(image, fix, BACK_HEIGHT_LIMIT)?;
        if self.has_two_grid(TwoGridSlip::FifteenBeforeNine) {
            on_the_height_grid(image, fix.point)?;
        }
        let corrections = self.corrections(image, &[fix.point])?;
        let quasi_geoid = self.height(image, fix, fix.point)?;
        if quasi_geoid.is_none() && self.has(UnboundedSlip::FifteenGoingBack.into()) {
            return Err(15);
        }
        Ok(Answer {
            point: self.placed(moved(fix.point, corrections, 1)),
            height: quasi_geoid.map(|it| fix.height + it),
            count: 1,
        })
    }

    pub fn way_out(&self, image: &Image, fix: Fix) -> Result<Answer, Number> {
        self.questions(image, fix, OUT_HEIGHT_LIMIT)?;
        let evaluations = match self.0 {
            Slip::ElevenAfter(evaluations) => evaluations,
            _ => 5,
        };
        let mut way = vec![fix.point];
        while way.len() <= evaluations {
            let here = way[way.len() - 1];
            let next = self.placed(moved(fix.point, self.corrections(image, &way)?, -1));
            let stops = self.stops(image, here, next) || self.has(Slip::SingleSubtraction);
            let asked_later = stops && self.has(Slip::StopTestBeforeTheBounds);
            if !self.is_next_in_bounds(image, fix.point, next) && !asked_later {
                return Err(10);
            }
            if stops {
                return self.answer(image, fix, next, way.len());
            }
            way.push(next);
        }
        self.not_settled(image, way[evaluations])
    }

    /// Questions 7 and 8.
    fn questions(&self, image: &Image, fix: Fix, height_limit: i128) -> Result<(), Number> {
        if let Slip::Unbounded(slip) = self.0 {
            return slip.questions(image, fix, height_limit);
        }
        fix_questions(image, fix, height_limit)?;
        if self.has_two_grid(TwoGridSlip::BoundsOfBothGrids) {
            return on_the_height_grid(image, fix.point).map_err(|_| 8);
        }
        Ok(())
    }

    /// The way out's answer once the stop rule has held.
    fn answer(&self, image: &Image, fix: Fix, last: Point, count: usize) -> Result<Answer, Number> {
        if self.has_two_grid(TwoGridSlip::LastCorrectionCellAsked) {
            self.corrections(image, &[last])?;
        }
        let height_at = if self.has(Slip::HeightAtTheFix) {
            fix.point
        } else {
            last
        };
        let quasi_geoid = match self.height(image, fix, height_at) {
            Err(9) if self.has(Slip::LastCellNotAsked) => Some(0),
            Err(8) if self.has(Slip::StopTestBeforeTheBounds) => Some(0),
            height => height?,
        };
        let fabricated = self.has(Slip::FabricatedCount);
        Ok(Answer {
            point: last,
            height: quasi_geoid.map(|it| fix.height - it),
            count: if fabricated { 2 } else { count as i128 },
        })
    }

    /// The number of a way out that did not stop.
    fn not_settled(&self, image: &Image, last: Point) -> Result<Answer, Number> {
        if self.has(Slip::CellOfP5AlwaysUsed) {
            self.corrections(image, &[last])?;
        }
        if self.has_two_grid(TwoGridSlip::FifteenBeforeEleven) {
            on_the_height_grid(image, last)?;
        }
        Err(11)
    }

    /// The corrections at the last point of a way.
    fn corrections(&self, image: &Image, way: &[Point]) -> Result<[i128; 2], Number> {
        let point = way[way.len() - 1];
        match self.0 {
            Slip::NorthernBound(number) if is_northern(image, point) => return Err(number),
            Slip::TwoGrids(TwoGridSlip::FifteenAtEveryStep) => on_the_height_grid(image, point)?,
            Slip::TwoGrids(TwoGridSlip::HeightsOfEveryCellAsked)
                if image.height(point) == Err(9) =>
            {
                return Err(9)
            }
            _ => {}
        }
        let exact = match self.0 {
            Slip::Dense(slip) => slip.exact_corrections(image, way)?,
            Slip::Unbounded(slip) => slip.exact_corrections(image, way)?,
            _ => image.exact_corrections(point)?,
        };
        Ok(exact.map(|it| self.rounded(it)))
    }

    fn stops(&self, image: &Image, here: Point, next: Point) -> bool {
        match self.0 {
            Slip::Dense(slip) => slip.stops(image, here, next),
            Slip::Unbounded(slip) => slip.stops(image, here, next),
            _ => stop_rule_holds(image.stop_distance(), here, next),
        }
    }

    /// Question 10.
    fn is_next_in_bounds(&self, image: &Image, fix: Point, next: Point) -> bool {
        match self.0 {
            Slip::Dense(slip) => slip.is_next_in_bounds(image, fix, next),
            Slip::Unbounded(slip) => slip.is_next_in_bounds(image, next),
            _ => image.reaches(next),
        }
    }

    /// The quasi-geoid height at a point of the way from a fix.
    fn height(&self, image: &Image, fix: Fix, point: Point) -> Result<Option<i128>, Number> {
        let exact = match self.0 {
            Slip::NorthernBound(number) if is_northern(image, point) => return Err(number),
            Slip::TwoGrids(slip) => slip.exact_height(image, point)?,
            Slip::Unbounded(slip) => slip.exact_height(image, fix.point, point)?,
            _ => image.exact_height(point)?,
        };
        Ok(exact.map(|it| self.rounded(it)))
    }

    /// A point of the way as the slip lets it be.
    fn placed(&self, point: Point) -> Point {
        match self.0 {
            Slip::Unbounded(slip) => slip.placed(point),
            _ => point,
        }
    }

    fn rounded(&self, exact: Fraction) -> i128 {
        let (numerator, denominator) = exact.parts();
        let (twice, above) = (2 * denominator, 2 * numerator + denominator);
        match self.0 {
            Slip::RoundingTowardZero => above / twice,
            Slip::SumCutTo64Bits => i128::from(above as i64).div_euclid(twice),
            Slip::HalfBelowZeroAway => {
                numerator.signum() * ((2 * numerator.abs() + denominator) / twice)
            }
            Slip::AboveHalfBelowZeroKept if numerator < 0 => numerator / denominator,
            Slip::HalfOfTheAreaRoundedDown => {
                rounded_by_half(numerator, denominator, denominator / 2)
            }
            _ => above.div_euclid(twice),
        }
    }
}

/// Document 02's six cases, with so much taken as half of the area.
fn rounded_by_half(sum: i128, area: i128, half: i128) -> i128 {
    let (quotient, remainder) = (sum.abs() / area, sum.abs() % area);
    if sum < 0 {
        -(quotient + i128::from(remainder > half))
    } else {
        quotient + i128::from(remainder >= half)
    }
}

fn is_northern(image: &Image, point: Point) -> bool {
    point.latitude == image.correction_geometry().north()
}

/// Is the point on the height grid? Else 15.
fn on_the_height_grid(image: &Image, point: Point) -> Result<(), Number> {
    let is_on = image.height_geometry().contains(point);
    is_on.then_some(()).ok_or(15)
}

/// The point plus the corrections, or minus them.
fn moved(point: Point, corrections: [i128; 2], sign: i128) -> Point {
    Point {
        latitude: point.latitude + sign * corrections[0],
        longitude: point.longitude + sign * corrections[1],
    }
}
