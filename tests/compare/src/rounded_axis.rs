//! An axis of a file once its floats are rounded, and the causes of a refusal in it.

use crate::causes::{NotFinite, Reason, Side, SIDES};
use crate::{FileAxis, Float};
use reference::{is_negative, Axis, Exact, Fraction, Width, DEGREE, DOUBLE};

/// An axis once rounded, nothing in place of a number that cannot be said, and what is not finite.
pub struct RoundedAxis {
    axis: Axis,
    low: Option<i128>,
    high: Option<i128>,
    spacing: Option<i128>,
    /// Below zero where the bounds are in the other order.
    pub lines: Option<i128>,
    is_whole: bool,
    not_finite: Vec<Reason>,
}

/// More lines than any file has nodes.
const MANY_LINES: i128 = 1 << 40;

impl RoundedAxis {
    pub fn of(axis: &FileAxis, scale: Fraction) -> RoundedAxis {
        let rounded = |it: Float| rounded(DOUBLE, it.bits, scale);
        let not_finite = axis.floats().filter_map(|it| {
            let kind = rounded(it).err()?;
            Some(Reason::AngleNotFinite(it.name, kind))
        });
        let nd = |it: Float| rounded(it).ok();
        let (low, spacing) = (nd(axis.low), nd(axis.spacing));
        let lines = axis.lines.map(i128::from);
        let from_lines = |low, lines: i128| low + (lines - 1) * spacing.unwrap_or(0);
        let high = match axis.high {
            Some(high) => nd(high),
            None => low.zip(lines).map(|(low, lines)| from_lines(low, lines)),
        };
        let difference = low.zip(high).map(|(low, high)| high - low);
        let steps = difference.zip(spacing.filter(|it| *it > 0));
        let from_bounds = match difference {
            Some(..0) => Some(-1),
            _ => steps.map(|(difference, spacing)| difference / spacing + 1),
        };
        RoundedAxis {
            axis: axis.axis,
            low,
            high,
            spacing,
            lines: lines.or(from_bounds).map(|it| it.min(MANY_LINES)),
            is_whole: !steps.is_some_and(|(it, spacing)| it > 0 && it % spacing != 0),
            not_finite: not_finite.collect(),
        }
    }

    pub fn reasons(&self) -> Vec<Reason> {
        let axis = self.axis;
        let count = self.lines.and_then(|lines| match lines {
            ..0 => Some(Reason::NegativeCount(axis)),
            _ => outside(lines, [2, 4_096]).map(|side| Reason::Count(axis, side)),
        });
        let spacing = self.spacing.and_then(|it| outside(it, [1, 100_000_000]));
        let limit = axis.degrees_limit() * DEGREE;
        let bounds = [self.low, self.high].into_iter().flatten();
        let sides: Vec<Side> = bounds
            .filter_map(|it| outside(it, [-limit, limit]))
            .collect();
        let of_bounds = SIDES.into_iter().filter(|side| sides.contains(side));
        let not_whole = (!self.is_whole).then_some(Reason::NotWhole(axis));
        count
            .into_iter()
            .chain(spacing.map(|side| Reason::Spacing(axis, side)))
            .chain(of_bounds.map(|side| Reason::Bound(axis, side)))
            .chain(not_whole)
            .chain(self.not_finite.iter().copied())
            .collect()
    }
}

/// On which side of the two limits, both allowed, a number lies, if not between them.
pub fn outside(number: i128, [lowest, highest]: [i128; 2]) -> Option<Side> {
    match number {
        _ if number < lowest => Some(Side::Below),
        _ if number > highest => Some(Side::Above),
        _ => None,
    }
}

/// Past every limit, and small enough to be multiplied by a count.
const FAR: i128 = 1 << 90;

/// The nearest whole number to a float at a scale. In place of one that is further than FAR from
/// zero, FAR or −FAR.
pub fn rounded(width: Width, bits: u64, scale: Fraction) -> Result<i128, NotFinite> {
    let Some(exact) = Exact::of(width, bits) else {
        return Err(not_finite(width, bits));
    };
    let far = exact.mantissa.signum() * FAR;
    Ok(exact.nearest(scale).unwrap_or(far).clamp(-FAR, FAR))
}

/// Which of those that are not finite a float is: an infinity has no bit in its fraction.
fn not_finite(width: Width, bits: u64) -> NotFinite {
    match bits % (1 << width.fraction_bits) {
        0 if is_negative(width, bits) => NotFinite::NegativeInfinity,
        0 => NotFinite::Infinity,
        _ => NotFinite::NotANumber,
    }
}
