//! Floats by their bits: the nearest whole number to the exact value of one, of either width, at a
//! scale. No float is computed with.

use crate::Fraction;

/// How the bits of a float are divided: from the highest bit on a sign, an exponent and a
/// fraction.
#[derive(Clone, Copy, Debug, PartialEq, Eq)]
pub struct Width {
    pub exponent_bits: u32,
    pub fraction_bits: u32,
}

/// "f32".
pub const SINGLE: Width = Width {
    exponent_bits: 8,
    fraction_bits: 23,
};

/// "f64".
pub const DOUBLE: Width = Width {
    exponent_bits: 11,
    fraction_bits: 52,
};

/// "The float's exact value": mantissa × 2^exponent.
#[derive(Clone, Copy, Debug, PartialEq, Eq)]
pub struct Exact {
    pub mantissa: i128,
    pub exponent: i32,
}

impl Exact {
    /// The value of a float with these bits; nothing if it is "not finite". Its mantissa is below
    /// 2^53 in size, and its exponent from −1,074 to 971.
    pub fn of(width: Width, bits: u64) -> Option<Exact> {
        let fraction = i128::from(bits) % (1 << width.fraction_bits);
        let exponents = 1 << width.exponent_bits;
        let field = (bits >> width.fraction_bits) as i32 % exponents;
        // An exponent with all bits set is that of the infinities and of what is not a number.
        if field == exponents - 1 {
            return None;
        }
        // A subnormal float, whose exponent has no bit set, has the exponent of the smallest
        // normal ones but not the bit above the fraction that these have.
        let size = match field {
            0 => fraction,
            _ => (1 << width.fraction_bits) + fraction,
        };
        let middle = exponents / 2 - 1;
        let sign = if is_negative(width, bits) { -1 } else { 1 };
        Some(Exact {
            mantissa: sign * size,
            exponent: field.max(1) - middle - width.fraction_bits as i32,
        })
    }

    /// The value times the scale, "nearest", "halves upward": plus one half, rounded down. Nothing
    /// only where the value is 2^64 or further from zero.
    ///
    /// The scale is positive, at most 10^9 over a number below 16, so that the mantissa times its
    /// numerator is below 2^83 in size, and all below fits 127 bits.
    pub fn nearest(self, scale: Fraction) -> Option<i128> {
        let (over, under) = scale.parts();
        let scaled = self.mantissa * over;
        let exact = match self.exponent {
            // Such a float is normal: its mantissa is at least 2^23 in size.
            41.. => return None,
            0..=40 => Fraction::new(scaled << self.exponent, under),
            -100..=-1 => Fraction::new(scaled, under << -self.exponent),
            // Below 2^83 / 2^101 in size, and plus one half between 0 and 1, whatever the sign.
            _ => return Some(0),
        };
        Some(exact.plus_half_rounded_down())
    }
}

/// Is the sign's bit set? So it is for −0 too.
pub fn is_negative(width: Width, bits: u64) -> bool {
    bits >> (width.exponent_bits + width.fraction_bits) == 1
}

/// The float with the other sign, whose exact value is that of the given one with its sign turned.
pub fn turned(width: Width, bits: u64) -> u64 {
    bits ^ (1 << (width.exponent_bits + width.fraction_bits))
}

/// The nearest whole number to a float's exact value times the scale, halves upward. Nothing only
/// where the float is not finite, or is 2^64 or further from zero.
pub fn nearest(width: Width, bits: u64, scale: Fraction) -> Option<i128> {
    Exact::of(width, bits)?.nearest(scale)
}
