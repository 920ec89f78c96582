//! Whole-number fractions: a numerator over a positive denominator, never rounded on the way.

/// An exact value.
#[derive(Clone, Copy, Debug, PartialEq, Eq)]
pub struct Fraction {
    numerator: i128,
    denominator: i128,
}

impl Fraction {
    /// The numerator divided by the denominator, which must be positive.
    pub const fn new(numerator: i128, denominator: i128) -> Self {
        assert!(denominator > 0, "a fraction's denominator is positive");
        Fraction {
            numerator,
            denominator,
        }
    }

    /// The sum of two fractions.
    pub fn plus(self, other: Fraction) -> Fraction {
        Fraction::new(
            self.numerator * other.denominator + other.numerator * self.denominator,
            self.denominator * other.denominator,
        )
    }

    /// Is the fraction no further than the limit from zero?
    pub fn is_within(self, limit: i128) -> bool {
        self.numerator.abs() <= limit * self.denominator
    }

    /// "Rounded down": the largest whole number that is not above the fraction.
    pub fn rounded_down(self) -> i128 {
        self.numerator.div_euclid(self.denominator)
    }

    /// "Plus one half, rounded down."
    pub fn plus_half_rounded_down(self) -> i128 {
        self.plus(Fraction::new(1, 2)).rounded_down()
    }

    /// Numerator and denominator.
    pub const fn parts(self) -> (i128, i128) {
        (self.numerator, self.denominator)
    }
}

#[cfg(test)]
mod tests {
    use super::Fraction;

    #[test]
    fn rounding_down_goes_below_a_negative_fraction() {
        assert_eq!(Fraction::new(7, 2).rounded_down(), 3);
        assert_eq!(Fraction::new(-7, 2).rounded_down(), -4);
        assert_eq!(Fraction::new(-8, 2).rounded_down(), -4);
    }

    #[test]
    fn a_limit_is_on_both_sides_of_zero_and_included() {
        for sign in [-1, 1] {
            assert!(Fraction::new(7 * sign, 7).is_within(1));
            assert!(!Fraction::new(8 * sign, 7).is_within(1));
        }
    }

    #[test]
    fn an_exact_half_is_rounded_up() {
        assert_eq!(Fraction::new(201, 2).plus_half_rounded_down(), 101);
        assert_eq!(Fraction::new(-201, 2).plus_half_rounded_down(), -100);
        assert_eq!(Fraction::new(-1007, 10).plus_half_rounded_down(), -101);
    }
}
