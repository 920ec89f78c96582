//! Made-up angles at a scale, as the bits of an f64.

use crate::random::Random;
use reference::{Fraction, DOUBLE};

const SIGN: u64 = 1 << 63;
const INFINITY: u64 = 0x7FF0 << 48;
const LARGEST: u64 = INFINITY - 1;
/// The smallest f64 above zero that is not subnormal.
const SMALLEST_NORMAL: u64 = 1 << 52;

/// The float nearest to an angle in nd.
pub fn nearest_to(scale: Fraction, nd: f64) -> u64 {
    let (over, under) = scale.parts();
    (nd * under as f64 / over as f64).to_bits()
}

/// A float that becomes the given nd, or stands on the edge to the nd beside it.
pub fn angle(random: &mut Random, scale: Fraction, nd: i64) -> u64 {
    let whole = nd as f64;
    match random.below(100) {
        0..60 => nearest_to(scale, whole),
        60..70 => beside(random, nearest_to(scale, whole)),
        70..85 => nearest_to(scale, whole + random.around_zero(499) as f64 / 1_000.0),
        _ => edge(random, scale, nd),
    }
}

/// A float that becomes exactly the given nd: where an exact half does, or a float beside one, or a
/// very small one, often this.
pub fn exactly(random: &mut Random, scale: Fraction, nd: i64) -> u64 {
    let (half_nd, step) = halves(scale);
    let is_half = |nd_doubled: i64| nd_doubled % half_nd == 0;
    let half = |nd_doubled: i64| ((nd_doubled / half_nd) as f64 * step).to_bits();
    let (below, above) = (2 * nd - 1, 2 * nd + 1);
    let beside = random.pick(&[-1, 1]);
    let bits = match random.below(100) {
        0..60 if nd == 0 => tiny(random),
        0..40 if is_half(below) => half(below),
        40..60 if is_half(below) => half(below).wrapping_add_signed(beside),
        0..60 if is_half(above) => half(above).wrapping_add_signed(beside),
        _ => angle(random, scale, nd),
    };
    if reference::nearest(DOUBLE, bits, scale) == Some(nd.into()) {
        return bits;
    }
    nearest_to(scale, nd as f64)
}

/// A float beside the half between an nd and the next one up or down, by a few bits at most.
pub fn edge(random: &mut Random, scale: Fraction, nd: i64) -> u64 {
    let half = random.pick(&[-0.5, 0.5]);
    let nearest = nearest_to(scale, nd as f64 + half);
    beside(random, nearest)
}

/// The same float, or one up to two bits away on the same side of zero.
fn beside(random: &mut Random, bits: u64) -> u64 {
    let (sign, size) = (bits & SIGN, bits & !SIGN);
    sign | size.saturating_add_signed(random.around_zero(2))
}

/// The exact halves at a scale are the odd multiples of this many half nd, and of this angle: of
/// 1/1024 degree, of 9/64 arcsecond.
pub fn halves(scale: Fraction) -> (i64, f64) {
    let (over, under) = scale.parts();
    let twos = over.trailing_zeros();
    let step = under as f64 / (2 << twos) as f64;
    ((over >> twos) as i64, step)
}

/// The odd multiple of so many half nd that is next to a number of nd, toward zero where there is
/// one.
pub fn odd_toward_zero(nd: i64, half_nd: i64) -> i64 {
    let multiples = 2 * nd.abs() / half_nd;
    let odd = (multiples - 1) / 2 * 2 + 1;
    if nd < 0 {
        -odd
    } else {
        odd
    }
}

/// An exact half in nd, or one bit beside it, which is no further from zero than the given nd where
/// there is such a half.
pub fn half(random: &mut Random, scale: Fraction, nd: i64) -> u64 {
    let (half_nd, step) = halves(scale);
    let half = (odd_toward_zero(nd, half_nd) as f64 * step).to_bits();
    half.wrapping_add_signed(random.pick(&[0, 0, 0, -1, 1]))
}

/// A float that becomes 0 nd: a zero of either sign, a subnormal one or another very small one.
pub fn tiny(random: &mut Random) -> u64 {
    let subnormal = random.below(SMALLEST_NORMAL);
    let size = random.pick(&[0, 0, 1, subnormal, SMALLEST_NORMAL - 1, SMALLEST_NORMAL]);
    random.pick(&[0, SIGN]) | size
}

/// A float that is not finite.
pub fn not_finite(random: &mut Random) -> u64 {
    let fraction = random.between(1, (1 << 52) - 1) as u64;
    let of_no_number = random.pick(&[1, 1 << 51, (1 << 52) - 1, fraction]);
    let sign = random.pick(&[0, SIGN]);
    sign | INFINITY | random.pick(&[0, of_no_number])
}

/// Any bits, those of the largest floats often.
pub fn any(random: &mut Random) -> u64 {
    let drawn = random.draw();
    random.pick(&[LARGEST, LARGEST | SIGN, drawn, drawn])
}
