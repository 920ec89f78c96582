//! Made-up notations: every field at and past its limit, every letter's byte, angles at their
//! limits and beside whole minutes.

use super::fixes::any_number;
use crate::random::Random;
use crate::Call;
use reference::{Axis, Notation};

/// The nd in a minute lie between this and one more.
const MINUTE: i64 = 16_666_666;

fn any_axis(random: &mut Random) -> Axis {
    random.pick(&[Axis::Latitude, Axis::Longitude])
}

/// A reading of any notation.
pub fn reading(random: &mut Random) -> Call {
    let axis = any_axis(random);
    let (positive, negative) = axis.letters();
    let letter = match random.below(10) {
        0 => random.pick(b"NSEWnsew"),
        1..4 => random.draw() as u8,
        _ => random.pick(&[positive, negative]),
    };
    let mut notation = Notation {
        degrees: any_degrees(random, axis),
        minutes: any_part(random, 60),
        hundred_thousandths: any_part(random, 6_000_000),
        letter,
    };
    if random.chance(30) {
        notation.degrees = random.pick(&[0, axis.degrees_limit() as u64]);
        notation.minutes = 0;
        notation.hundred_thousandths = random.pick(&[0, 0, 1, 2]);
    }
    Call::ReadNotation { axis, notation }
}

/// Degrees in the axis's limit most often; at times so many that their total, cut to 64 bits,
/// would be small (2^55 degrees are a multiple of 2^64 hundred-thousandths).
fn any_degrees(random: &mut Random, axis: Axis) -> u64 {
    let limit = axis.degrees_limit() as u64;
    let inside = random.below(limit + 1);
    let wrapping = (random.below(512) << 55) + inside;
    match random.below(20) {
        0 => wrapping,
        1 => random.pick(&[u64::MAX, u64::MAX / 360_000_000, 1 << 63, limit + 1]),
        2 => random.draw() >> random.below(64),
        3..6 => random.pick(&[0, limit - 1, limit]),
        _ => inside,
    }
}

/// Minutes or hundred-thousandths: below the limit most often, zero often.
fn any_part(random: &mut Random, limit: u64) -> u64 {
    match random.below(20) {
        0 => random.pick(&[limit, limit + 1, u64::MAX, 1 << 32, 1 << 63]),
        1 => random.draw() >> random.below(64),
        2..5 => random.pick(&[0, 1, limit - 1]),
        5..9 => 0,
        _ => random.below(limit),
    }
}

/// A writing of any angle.
pub fn writing(random: &mut Random) -> Call {
    let axis = any_axis(random);
    let limit = 1_000_000_000 * axis.degrees_limit() as i64;
    let nd = match random.below(20) {
        0 => any_number(random),
        1..4 => random.sign() * (limit + random.between(-4, 4)),
        4..6 => random.around_zero(10),
        6..10 => beside_whole_minute(random, limit),
        _ => random.around_zero(limit),
    };
    Call::WriteNotation { axis, nd }
}

/// An angle up to 4 nd from a whole minute.
fn beside_whole_minute(random: &mut Random, limit: i64) -> i64 {
    let minutes = random.between(0, limit / MINUTE);
    random.sign() * (minutes * 50_000_000 / 3 + random.between(-4, 4))
}
