//! Floats of 32 and 64 bits as the exact numbers that they stand for, and their nearest whole
//! numbers at a scale.

/// What a value is multiplied by: over / under, both below 2^40.
#[derive(Clone, Copy)]
pub struct Scale {
    pub over: i64,
    pub under: i64,
}

/// A finite float: mantissa × 2^exponent.
#[derive(Clone, Copy)]
pub struct Exact {
    mantissa: i64,
    exponent: i32,
}

impl Exact {
    /// The value of an f32, if it is finite.
    pub fn of_f32(value: f32) -> Option<Exact> {
        let bits = value.to_bits();
        let (field, fraction) = (bits >> 23 & 0xFF, i64::from(bits & 0x7F_FFFF));
        let (size, exponent) = match field {
            0xFF => return None,
            0 => (fraction, -149),
            _ => (fraction | 1 << 23, field as i32 - 150),
        };
        Some(Exact::signed(value.is_sign_negative(), size, exponent))
    }

    /// The value of an f64, if it is finite.
    pub fn of_f64(value: f64) -> Option<Exact> {
        let bits = value.to_bits();
        let (field, fraction) = (bits >> 52 & 0x7FF, (bits & 0xF_FFFF_FFFF_FFFF) as i64);
        let (size, exponent) = match field {
            0x7FF => return None,
            0 => (fraction, -1_074),
            _ => (fraction | 1 << 52, field as i32 - 1_075),
        };
        Some(Exact::signed(value.is_sign_negative(), size, exponent))
    }

    fn signed(negative: bool, size: i64, exponent: i32) -> Exact {
        let mantissa = if negative { -size } else { size };
        Exact { mantissa, exponent }
    }

    /// The nearest whole number to the value times the scale, halves upward: the product plus one
    /// half, rounded down. None where it is past the limit, which is below 2^40.
    #[inline]
    pub fn nearest(self, scale: Scale, limit: i64) -> Option<i64> {
        // Then the value is at least 2^23 from zero, since only a full mantissa has such an
        // exponent: past every limit that is asked here.
        if self.exponent >= 0 {
            return None;
        }
        // The product is below 2^93, so it is nearest to 0 from 2^100 on, however much further.
        let shift = (-self.exponent).min(100);
        let product = i128::from(self.mantissa) * i128::from(scale.over);
        // The exact value plus one half is (product / 2^(shift - 1) + under) / (2 × under). Rounding
        // the first quotient down does not change the second one rounded down.
        let dividend = (product >> (shift - 1)) + i128::from(scale.under);
        let divisor = 2 * scale.under;
        let passing = i128::from(-limit * divisor)..i128::from((limit + 1) * divisor);
        let whole = || (dividend as i64).div_euclid(divisor);
        passing.contains(&dividend).then(whole)
    }
}
