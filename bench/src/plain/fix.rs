//! What the conversions of both editions share: the list, and question 7 of a fix.

use super::nodes::Point;
use super::Number;

/// Latitude, longitude, height, count, and the number: 0, or 100 without a height.
pub type Values = [i64; 5];

/// Each fix's answer, after question 14.
#[inline]
pub fn convert_all(
    fixes: &[i64],
    answers: &mut [i64],
    convert: impl Fn(Point, i64) -> Result<Values, Number>,
) -> Number {
    let count = fixes.len() / 3;
    if fixes.len() != 3 * count || answers.len() != 5 * count {
        return 14;
    }
    for (fix, answer) in fixes.chunks_exact(3).zip(answers.chunks_exact_mut(5)) {
        let point = Point {
            latitude: fix[0],
            longitude: fix[1],
        };
        let five = convert(point, fix[2]).unwrap_or_else(|number| [0, 0, 0, 0, number]);
        answer.copy_from_slice(&five);
    }
    0
}

/// Question 7.
pub fn judge_fix(p: Point, height: i64, limit: u64) -> Result<(), Number> {
    let angles_fit = p.latitude.unsigned_abs() <= 90_000_000_000
        && p.longitude.unsigned_abs() <= 180_000_000_000;
    if angles_fit && height.unsigned_abs() <= limit {
        Ok(())
    } else {
        Err(7)
    }
}
