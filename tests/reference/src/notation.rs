//! Degrees, minutes, seconds: reading and writing a notation, with question 13.

use crate::{ask, within, Fraction, Number, DEGREE};

/// Hundred-thousandths of a second in a minute.
const MINUTE_TOTAL: i128 = 60 * 100_000;
/// Hundred-thousandths of a second in a degree.
const DEGREE_TOTAL: i128 = 60 * MINUTE_TOTAL;

/// "The wanted axis".
#[derive(Clone, Copy, Debug, PartialEq, Eq)]
pub enum Axis {
    Latitude,
    Longitude,
}

/// "A notation is degrees, minutes, hundred-thousandths of a second, and one of the letters N,
/// S, E, W."
#[derive(Clone, Copy, Debug, PartialEq, Eq)]
pub struct Notation {
    pub degrees: u64,
    pub minutes: u64,
    pub hundred_thousandths: u64,
    pub letter: u8,
}

impl Axis {
    /// The axis's letters: for a positive sign, and for a negative one.
    pub fn letters(self) -> (u8, u8) {
        match self {
            Axis::Latitude => (b'N', b'S'),
            Axis::Longitude => (b'E', b'W'),
        }
    }

    /// "At most 90 or 180 degrees".
    pub fn degrees_limit(self) -> i128 {
        match self {
            Axis::Latitude => 90,
            Axis::Longitude => 180,
        }
    }
}

/// "Reading gives 25 × t / 9 plus one half, rounded down, then the sign for S and W."
pub fn read_notation(axis: Axis, notation: Notation) -> Result<i64, Number> {
    let (positive, negative) = axis.letters();
    // "Let t be its total in hundred-thousandths of a second."
    let total = i128::from(notation.degrees) * DEGREE_TOTAL
        + i128::from(notation.minutes) * MINUTE_TOTAL
        + i128::from(notation.hundred_thousandths);
    // "Question 13: minutes below 60, hundred-thousandths below 6,000,000, letter of the wanted
    // axis, total at most 90 or 180 degrees". "Else 13."
    ask(notation.minutes < 60, 13)?;
    ask(notation.hundred_thousandths < 6_000_000, 13)?;
    ask([positive, negative].contains(&notation.letter), 13)?;
    ask(total <= axis.degrees_limit() * DEGREE_TOTAL, 13)?;
    let nd = Fraction::new(25 * total, 9).plus_half_rounded_down();
    let signed = if notation.letter == negative { -nd } else { nd };
    Ok(i64::try_from(signed).expect("180 degrees fit 64 bits"))
}

/// "Writing |nd| gives t as (18 × |nd| + 25) / 50 rounded down, then split; the letter follows
/// the sign of the nd, zero counting as N or E." Document 02, note 7: "A written total of zero
/// shall be N or E."
pub fn write_notation(axis: Axis, nd: i64) -> Result<Notation, Number> {
    let nd = i128::from(nd);
    // "In writing, the nd within those limits. Else 13."
    ask(within(nd, axis.degrees_limit() * DEGREE), 13)?;
    let total = Fraction::new(18 * nd.abs() + 25, 50).rounded_down();
    let (positive, negative) = axis.letters();
    let field = |value: i128| u64::try_from(value).expect("a field fits 64 bits");
    Ok(Notation {
        degrees: field(total / DEGREE_TOTAL),
        minutes: field(total % DEGREE_TOTAL / MINUTE_TOTAL),
        hundred_thousandths: field(total % MINUTE_TOTAL),
        letter: if nd < 0 && total > 0 {
            negative
        } else {
            positive
        },
    })
}
