//! Document 01's formulas, edition 2's and those of its kinds 1 to 3, over f64, with none of their
//! questions and no test of an index: what a program reaches that promises nothing. It reads past the
//! image where that or a fix is unfit, and its answers are near those of the papers, not equal to them.

mod dense;
mod first;
mod nodes;
mod planes;
mod second;
#[cfg(test)]
mod tests;
mod two_grids;
mod unbounded;

use crate::Way;

/// A list call. The list's lengths must fit, the image be one of edition 1 or 2, and every fix be
/// answered by the library.
pub fn list(way: Way, image: &[u8], fixes: &[i64], answers: &mut [i64]) -> i64 {
    if image.ends_with(&[1, 0, 0, 0, 2, 0, 0, 0]) {
        dense::list(way, image, fixes, answers)
    } else if image.ends_with(&[2, 0, 0, 0, 2, 0, 0, 0]) {
        unbounded::list(way, image, fixes, answers)
    } else if image.ends_with(&[3, 0, 0, 0, 2, 0, 0, 0]) {
        planes::list(way, image, fixes, answers)
    } else if image.ends_with(&2_u32.to_le_bytes()) {
        second::list(way, image, fixes, answers)
    } else {
        first::list(way, image, fixes, answers)
    }
}

/// Each fix's answer: latitude, longitude, height, count and number from the conversion.
#[inline]
fn convert_all(
    fixes: &[i64],
    answers: &mut [i64],
    convert: impl Fn(i64, i64, i64) -> [i64; 5],
) -> i64 {
    for (fix, answer) in fixes.chunks_exact(3).zip(answers.chunks_exact_mut(5)) {
        answer.copy_from_slice(&convert(fix[0], fix[1], fix[2]));
    }
    0
}

/// More than any value is below zero.
const LIFT: i64 = 1 << 24;

/// The nearest whole number. The value is lifted above zero, where dropping the fraction rounds
/// down: Rust's floor is a call of a function.
#[inline]
fn nearest(value: f64) -> i64 {
    unsafe { (value + (LIFT as f64 + 0.5)).to_int_unchecked::<i64>() - LIFT }
}
