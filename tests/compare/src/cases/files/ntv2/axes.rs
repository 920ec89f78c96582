//! Made-up bounds and spacings of NTv2 files: over a fit axis, and broken.

use super::super::angles;
use crate::cases::axis::Axis;
use crate::cases::geometry::{LINES_LIMIT, SPACING_LIMIT};
use crate::random::Random;
use reference::{turned, Records, DOUBLE, FROM_ARCSECONDS};

/// The labels of the lower bound, the higher one and the spacing of each axis.
const LABELS: [[&str; 3]; 2] = [
    ["S_LAT", "N_LAT", "LAT_INC"],
    ["W_LONG", "E_LONG", "LONG_INC"],
];
const SPACING: usize = 2;

/// The axis with bounds or a spacing at which an exact half decides, or with a bound of 0, as far
/// as the limits allow.
pub fn with_halves(random: &mut Random, mut axis: Axis) -> Axis {
    let (half_nd, _) = angles::halves(FROM_ARCSECONDS);
    // The half itself goes up to the upper one of these, and what is a bit less to the lower one.
    let side = random.pick(&[-1, 1]);
    let by_half = |nd| (angles::odd_toward_zero(nd, half_nd) * half_nd + side) / 2;
    if random.chance(30) && axis.spacing > half_nd {
        let whole = axis.spacing / half_nd * half_nd;
        axis.spacing = random.pick(&[whole, by_half(axis.spacing)]);
    }
    let low = match random.below(100) {
        0..30 => by_half(axis.low),
        30..33 => 0,
        33..36 => -axis.extent(),
        _ => axis.low,
    };
    if -axis.limit <= low && low + axis.extent() <= axis.limit {
        axis.low = low;
    }
    axis
}

/// Writes the axis's numbers in floats that become exactly these, longitudes with the other sign.
pub fn write(random: &mut Random, header: &mut Records, which: usize, axis: &Axis) {
    for (label, nd) in LABELS[which].into_iter().zip(numbers(axis)) {
        write_nd(random, header, label, nd);
    }
}

/// Lower bound, higher bound, spacing.
fn numbers(axis: &Axis) -> [i64; 3] {
    [axis.low, axis.high(), axis.spacing]
}

fn write_nd(random: &mut Random, header: &mut Records, label: &str, nd: i64) {
    let bits = angles::exactly(random, FROM_ARCSECONDS, nd);
    let bits = match label {
        "W_LONG" | "E_LONG" => turned(DOUBLE, bits),
        _ => bits,
    };
    *header.value_mut(label) = bits.to_le_bytes();
}

/// The axis with both bounds at or past a limit, a spacing at or past its limit, or another count
/// of lines.
pub fn broken(random: &mut Random, axis: Axis) -> Axis {
    match random.below(20) {
        0..10 => {
            let (limit, extent) = (axis.limit, axis.extent());
            let beside = random.between(-1, 1);
            let far = random.between(1, limit);
            let at = [-limit + beside, limit - extent + beside];
            let past = [-limit - far, limit - extent + far];
            let low = random.pick(&[at, at, past].concat());
            Axis { low, ..axis }
        }
        10..15 => {
            let past = SPACING_LIMIT + random.between(1, 1 << 32);
            let spacing = random.pick(&[SPACING_LIMIT, SPACING_LIMIT + 1, past]);
            with_lines(axis, spacing, axis.lines.min(30))
        }
        15..19 => with_lines(axis, axis.spacing, 1),
        _ => {
            let spacing = axis.spacing.min(2 * axis.limit / LINES_LIMIT);
            with_lines(axis, spacing, LINES_LIMIT + 1)
        }
    }
}

/// The axis with this spacing and so many lines, further down where it would be past its limit.
fn with_lines(axis: Axis, spacing: i64, lines: i64) -> Axis {
    let highest = axis.limit - (lines - 1) * spacing;
    Axis {
        low: axis.low.min(highest),
        spacing,
        lines,
        ..axis
    }
}

/// Sets some bound or spacing to a float that is not finite, to a very small one, to one of the
/// other sign, to one at its limit or a few bits beside it, or to any.
pub fn break_float(random: &mut Random, header: &mut Records, axes: &[Axis; 2]) {
    let which = random.below(2) as usize;
    let place = random.below(3) as usize;
    let label = LABELS[which][place];
    let bits = match random.below(20) {
        0..12 => angles::not_finite(random),
        12 => angles::tiny(random),
        13 => angles::any(random),
        14..18 => {
            let bound = random.sign() * axes[which].limit;
            let spacing = random.pick(&[0, SPACING_LIMIT, SPACING_LIMIT]);
            let limit = if place == SPACING { spacing } else { bound };
            angles::edge(random, FROM_ARCSECONDS, limit)
        }
        _ => turned(DOUBLE, header.angle(label)),
    };
    *header.value_mut(label) = bits.to_le_bytes();
}

/// Changes a bound or a spacing by 1 nd or by a part of a spacing, or exchanges two floats: the
/// bounds of an axis, or the spacings.
pub fn break_difference(random: &mut Random, header: &mut Records, axes: &[Axis; 2]) {
    let which = random.below(2) as usize;
    let axis = &axes[which];
    let [low, high, _] = LABELS[which];
    match random.below(10) {
        0..3 => exchange(header, low, high),
        3 => exchange(header, LABELS[0][SPACING], LABELS[1][SPACING]),
        _ => {
            let place = random.below(3) as usize;
            let part = random.between(1, axis.spacing);
            let change = random.pick(&[-1, 1, 1, part, axis.spacing / 2]);
            let nd = numbers(axis)[place] + change;
            write_nd(random, header, LABELS[which][place], nd);
        }
    }
}

fn exchange(header: &mut Records, one: &str, other: &str) {
    let before = *header;
    *header.value_mut(one) = before.value(other);
    *header.value_mut(other) = before.value(one);
}
