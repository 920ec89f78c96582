//! The nearest whole number to a float with a slip.

use super::FileSlip;
use compare::Format;
use reference::{nearest, turned, Exact, Fraction, Width, DOUBLE};

impl FileSlip {
    /// The nearest whole number to a float of some width at a scale, as the slip has it.
    pub fn nearest(self, width: Width, bits: u64, scale: Fraction) -> Option<i128> {
        let size = bits % (1 << (width.exponent_bits + width.fraction_bits));
        let smallest_normal = 1 << width.fraction_bits;
        let infinity = ((1 << width.exponent_bits) - 1) << width.fraction_bits;
        match self {
            FileSlip::NoNumberIsZero if size > infinity => Some(0),
            FileSlip::InfinityIsZero if size == infinity => Some(0),
            FileSlip::SubnormalRefused if (1..smallest_normal).contains(&size) => None,
            FileSlip::SignLost => nearest(width, size, scale),
            _ if width == DOUBLE => self.angle(bits, Exact::of(width, bits)?, scale),
            _ => self.value(bits, Exact::of(width, bits)?, scale),
        }
    }

    /// The same for a longitude or a longitude shift, whose sign is turned.
    pub fn nearest_turned(self, width: Width, bits: u64, scale: Fraction) -> Option<i128> {
        match self {
            FileSlip::TurnedAfterRounding => nearest(width, bits, scale).map(|it| -it),
            FileSlip::NotTurned => nearest(width, bits, scale),
            _ => self.nearest(width, turned(width, bits), scale),
        }
    }

    fn angle(self, bits: u64, exact: Exact, scale: Fraction) -> Option<i128> {
        if self == FileSlip::DoubleArithmetic {
            let (over, under) = scale.parts();
            let nd = f64::from_bits(bits) * over as f64 / under as f64;
            return Some((nd + 0.5).floor() as i128);
        }
        self.rounded(exact, scale)
    }

    /// The value of a node.
    fn value(self, bits: u64, exact: Exact, scale: Fraction) -> Option<i128> {
        let (over, under) = scale.parts();
        let mut layouts = Format::ALL.map(Format::layout).into_iter();
        let layout = layouts.find(|it| it.value_scale == scale);
        let limit = layout.expect("the scale of a format's values").value_limit;
        let given = f32::from_bits(bits as u32);
        let value = self.rounded(exact, scale);
        match self {
            FileSlip::SingleArithmetic => {
                Some((given * over as f32 / under as f32 + 0.5).floor() as i128)
            }
            FileSlip::ValuesCutToTheLimit => {
                let far = exact.mantissa.signum() * limit;
                Some(value.unwrap_or(far).clamp(-limit, limit))
            }
            FileSlip::LimitRefused => value.filter(|it| it.abs() < limit),
            FileSlip::LimitBeforeRounding => value.filter(|_| given.abs() <= 100.0),
            _ => value,
        }
    }

    /// The rounding of an exact value times the scale.
    fn rounded(self, exact: Exact, scale: Fraction) -> Option<i128> {
        let (over, under) = scale.parts();
        let scaled = exact.mantissa * over;
        let shift = match exact.exponent {
            ..=-1 if self == FileSlip::ShiftCutTo6Bits => -exact.exponent % 64,
            -100..=-1 => -exact.exponent,
            _ => return exact.nearest(scale),
        };
        // One half is added to the scaled mantissa over this denominator, and the sum rounded down.
        let one: i128 = under << shift;
        let plus_half = |scaled: i128| 2 * scaled + one;
        let right = plus_half(scaled).div_euclid(2 * one);
        let is_half = plus_half(scaled).rem_euclid(2 * one) == 0;
        Some(match self {
            FileSlip::RoundedTowardZero => plus_half(scaled) / (2 * one),
            FileSlip::RoundedDown => scaled.div_euclid(one),
            FileSlip::HalfDownward => -plus_half(-scaled).div_euclid(2 * one),
            FileSlip::HalfAwayFromZero => scaled.signum() * (plus_half(scaled.abs()) / (2 * one)),
            FileSlip::HalfToEven if is_half => right - right.rem_euclid(2),
            _ => right,
        })
    }
}
