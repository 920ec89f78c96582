//! The way back and the way out of a single fix, with questions 7 to 11 and 15.

use crate::{ask, within, Image, Number, Point, DEGREE};

/// "The height within 100,000,000 (out)".
pub const OUT_HEIGHT_LIMIT: i128 = 100_000_000;
/// "or 110,000,000 (back)".
pub const BACK_HEIGHT_LIMIT: i128 = 110_000_000;

/// "A fix is latitude, longitude, height".
#[derive(Clone, Copy, Debug, PartialEq, Eq)]
pub struct Fix {
    pub point: Point,
    pub height: i128,
}

/// "A single conversion answers either its values with the count, or the number alone." Off the
/// height grid of a kind 2 image its values have no height: "a single answer carries the same mark".
#[derive(Clone, Copy, Debug, PartialEq, Eq)]
pub struct Answer {
    pub point: Point,
    pub height: Option<i128>,
    pub count: i128,
}

/// Questions 7 and 8, put for every fix.
pub fn fix_questions(image: &Image, fix: Fix, height_limit: i128) -> Result<(), Number> {
    // "7. Are latitude and longitude within 90 and 180 degrees of zero, and the height within
    // 100,000,000 (out) or 110,000,000 (back)? Else 7."
    let angles_fit =
        within(fix.point.latitude, 90 * DEGREE) && within(fix.point.longitude, 180 * DEGREE);
    ask(angles_fit && within(fix.height, height_limit), 7)?;
    // "8. Is the given point in the bounds, all four included? Else 8." Not put under kind 2.
    ask(image.reaches(fix.point), 8)
}

/// "Back, from Bessel point q and NAP height H: the ETRS89 point is q plus the corrections at q;
/// ellipsoidal height is H plus the quasi-geoid height at q. The evaluation count is 1."
pub fn way_back(image: &Image, fix: Fix) -> Result<Answer, Number> {
    fix_questions(image, fix, BACK_HEIGHT_LIMIT)?;
    let [latitude_correction, longitude_correction] = image.corrections(fix.point)?;
    // "Refusal 15, … after 9 going back", then question 9 for the height cell.
    let quasi_geoid = image.height(fix.point)?;
    Ok(Answer {
        point: Point {
            latitude: fix.point.latitude + latitude_correction,
            longitude: fix.point.longitude + longitude_correction,
        },
        height: quasi_geoid.map(|it| fix.height + it),
        count: 1,
    })
}

/// "Out, from ETRS89 point p and height h: p0 = p, and p(k+1) is p minus the corrections at pk."
pub fn way_out(image: &Image, fix: Fix) -> Result<Answer, Number> {
    fix_questions(image, fix, OUT_HEIGHT_LIMIT)?;
    let mut previous = fix.point;
    for count in 1..=5 {
        // Question 9 is put for the cell of p(n−1) by this lookup.
        let [latitude_correction, longitude_correction] = image.corrections(previous)?;
        let next = Point {
            latitude: fix.point.latitude - latitude_correction,
            longitude: fix.point.longitude - longitude_correction,
        };
        // "10. Out: is each pk, k from 1, in the bounds? Else 10. This precedes the stop test
        // for pk, and question 9 for its cell." Not put under kind 2: pk may then lie anywhere.
        ask(image.reaches(next), 10)?;
        // "The answer is the first pn, n from 1, whose two angles each differ from those of
        // p(n−1) by at most 1 nd", or 3 nd with a dense grid.
        let distance = image.stop_distance();
        if within(next.latitude - previous.latitude, distance)
            && within(next.longitude - previous.longitude, distance)
        {
            // "NAP height is h minus the quasi-geoid height at pn. The evaluation count is n;
            // the height lookup is not counted." It puts question 9 for the cell of pn, in
            // edition 2 for the height cell and after 15.
            let quasi_geoid = image.height(next)?;
            return Ok(Answer {
                point: next,
                height: quasi_geoid.map(|it| fix.height - it),
                count,
            });
        }
        previous = next;
    }
    // "11. Out: has the stop rule held by p5? Else 11." "The cell of p5 is used only when the
    // stop rule holds there."
    Err(11)
}
