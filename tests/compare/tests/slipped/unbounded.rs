//! Images of kind 2 as a converter with a slip opens them, and its ways over them.

use super::images::with_trailer;
use super::UnboundedSlip;
use compare::{nearest_point, stop_rule_holds};
use reference::{
    fix_questions, DenseTrailer, Fix, Fraction, Image, Number, Point, TwoGridTrailer, DEGREE,
};

const ZERO: [Fraction; 2] = [Fraction::new(0, 1); 2];

/// The image with another kind if it has this one.
pub fn with_kind(image: &[u8], kind: u32, seen: u32) -> Vec<u8> {
    with_trailer(image, |trailer| {
        if trailer.kind == kind {
            trailer.kind = seen;
        }
    })
}

/// The point with both angles put back to 90 and 180 degrees.
fn within_the_limits(point: Point) -> Point {
    Point {
        latitude: point.latitude.clamp(-90 * DEGREE, 90 * DEGREE),
        longitude: point.longitude.clamp(-180 * DEGREE, 180 * DEGREE),
    }
}

impl UnboundedSlip {
    /// The image as the slip lets it look.
    pub fn image_seen(self, image: &[u8]) -> Vec<u8> {
        match self {
            UnboundedSlip::KindTwoTakenForZero => with_kind(image, 2, 0),
            UnboundedSlip::KindThreeTaken => with_kind(image, 3, 2),
            UnboundedSlip::KindCutTo8Bits => with_trailer(image, |trailer| trailer.kind %= 256),
            UnboundedSlip::ZeroOutsideOfKindZero
            | UnboundedSlip::NoHeightInKindZero
            | UnboundedSlip::BorderOfKindZeroAsked => with_kind(image, 0, 2),
            _ => image.to_vec(),
        }
    }

    /// The number that the slip gives the image before any other question, if it gives one.
    pub fn number_seen(self, image: &[u8]) -> Option<Number> {
        let trailer = TwoGridTrailer::read(image).filter(|it| it.edition == 2 && it.kind == 2)?;
        match self {
            UnboundedSlip::KindTwoUnknown => Some(2),
            UnboundedSlip::ThirtySixBytesAsked => {
                let is_short = DenseTrailer::read(image, &trailer).is_none();
                is_short.then_some(1)
            }
            _ => None,
        }
    }

    /// The questions of a fix before its way.
    pub fn questions(self, image: &Image, fix: Fix, height_limit: i128) -> Result<(), Number> {
        let asked = match self {
            UnboundedSlip::AnglesNotAsked if image.is_unbounded() => Fix {
                point: within_the_limits(fix.point),
                ..fix
            },
            _ => fix,
        };
        fix_questions(image, asked, height_limit)?;
        if self.puts(8) && !image.in_bounds(fix.point) {
            return Err(8);
        }
        Ok(())
    }

    /// Is the question put to an image that is taken for one of kind 2?
    fn puts(self, number: Number) -> bool {
        match self {
            UnboundedSlip::QuestionPut(put) => put == number,
            UnboundedSlip::ZeroOutsideOfKindZero => number == 15,
            UnboundedSlip::NoHeightInKindZero => number != 15,
            _ => false,
        }
    }

    /// Is question 10 answered with yes?
    pub fn is_next_in_bounds(self, image: &Image, next: Point) -> bool {
        match self {
            UnboundedSlip::TenAtTheLimits => image.reaches(next) && next == within_the_limits(next),
            _ if self.puts(10) => image.in_bounds(next),
            _ => image.reaches(next),
        }
    }

    /// Does the stop rule hold?
    pub fn stops(self, image: &Image, here: Point, next: Point) -> bool {
        let distance = match self {
            UnboundedSlip::StopAt(distance) if image.is_unbounded() => distance,
            _ => image.stop_distance(),
        };
        stop_rule_holds(distance, here, next)
    }

    /// A point of a way.
    pub fn placed(self, point: Point) -> Point {
        let turn = 360 * DEGREE;
        match self {
            UnboundedSlip::CutToTheLimits => within_the_limits(point),
            UnboundedSlip::TurnedAt180 => Point {
                longitude: (point.longitude + turn / 2).rem_euclid(turn) - turn / 2,
                ..point
            },
            _ => point,
        }
    }

    /// The exact corrections at the last point of a way.
    pub fn exact_corrections(self, image: &Image, way: &[Point]) -> Result<[Fraction; 2], Number> {
        let here = way[way.len() - 1];
        let geometry = image.correction_geometry();
        let nearest = nearest_point(geometry, here);
        let outside = nearest != here;
        match self {
            _ if !image.is_unbounded() => image.exact_corrections(here),
            UnboundedSlip::OutsideOn(side) if side.is_past_by(geometry, here, 0) => Ok(ZERO),
            UnboundedSlip::InsideBeside(side) if side.is_past_by(geometry, here, 1) => {
                image.exact_corrections(nearest)
            }
            UnboundedSlip::NearestOutside => image.exact_corrections(nearest),
            UnboundedSlip::NearestCellAsked if outside => {
                image.exact_corrections(nearest).map(|_| ZERO)
            }
            UnboundedSlip::ZeroInOneAngle => {
                let [latitude, longitude] = image.exact_corrections(nearest)?;
                let of = |is_past: bool, exact| if is_past { ZERO[0] } else { exact };
                Ok([
                    of(here.latitude != nearest.latitude, latitude),
                    of(here.longitude != nearest.longitude, longitude),
                ])
            }
            UnboundedSlip::CorrectionsKept if outside && way.len() > 1 => {
                image.exact_corrections(way[way.len() - 2])
            }
            _ => image.exact_corrections(here),
        }
    }

    /// The exact quasi-geoid height at a point of the way from a fix.
    pub fn exact_height(
        self,
        image: &Image,
        fix: Point,
        point: Point,
    ) -> Result<Option<Fraction>, Number> {
        let geometry = image.height_geometry();
        let nearest = nearest_point(geometry, point);
        match self {
            _ if !image.is_unbounded() => image.exact_height(point),
            _ if self.puts(15) && nearest != point => Err(15),
            UnboundedSlip::OffOn(side) if side.is_past_by(geometry, point, 0) => Ok(None),
            UnboundedSlip::OnBeside(side) if side.is_past_by(geometry, point, 1) => {
                image.exact_height(nearest)
            }
            UnboundedSlip::NearestHeight => image.exact_height(nearest),
            UnboundedSlip::NearestHeightCellAsked if nearest != point => {
                image.exact_height(nearest).map(|_| None)
            }
            UnboundedSlip::NoHeightOutside if !image.in_bounds(point) => Ok(None),
            UnboundedSlip::HeightByTheFix if !geometry.contains(fix) => Ok(None),
            _ => image.exact_height(point),
        }
    }

    /// Changes the answers without a height.
    pub fn mark(self, fixes: &[i64], answers: &mut [i64]) {
        for (fix, answer) in fixes.chunks_exact(3).zip(answers.chunks_exact_mut(5)) {
            match self {
                _ if answer[4] != 100 => {}
                UnboundedSlip::HeightLeftIn => answer[2] = fix[2],
                UnboundedSlip::MarkLeftOut => answer[4] = 0,
                UnboundedSlip::MarkAlone => answer[..4].fill(0),
                UnboundedSlip::CountLeftOut => answer[3] = 0,
                _ => {}
            }
        }
    }
}
