//! What holds of every angle that can be written, tried on many: its notation is formula 3.4's of
//! source document 002, except the letter of a total of zero (document 02, note 7), and is read
//! within 1 nd of it.

use reference::{read_notation, write_notation, Axis, Fraction, Notation};
use std::collections::BTreeSet;

const ND_IN_A_DEGREE: i64 = 1_000_000_000;

/// Zero and the angles around it, those around each whole minute and the limit, and others all over
/// the axis, on both sides.
fn angles(axis: Axis) -> impl Iterator<Item = i64> {
    let degrees = i64::try_from(axis.degrees_limit()).unwrap();
    let limit = degrees * ND_IN_A_DEGREE;
    let around_zero = 0..3_000;
    let minutes =
        (0..=60 * degrees).flat_map(|it| (-4..=4).map(move |by| it * 50_000_000 / 3 + by));
    let others = (0..limit).step_by(12_345_677);
    let sizes = around_zero.chain(minutes).chain(others);
    let inside = sizes.filter(move |size| (0..=limit).contains(size));
    inside.flat_map(|size| [size, -size])
}

/// Formula 3.4b to f, and g's letter C.
fn formula_3_4(axis: Axis, nd: i64) -> Notation {
    // |d|, times 3600 × 10^5
    let size = 3_600 * 100_000 * i128::from(nd.abs());
    let rounded = Fraction::new(size, ND_IN_A_DEGREE.into()).plus_half_rounded_down();
    let degrees = Fraction::new(rounded, 3_600 * 100_000);
    let minutes = sixty_times_the_rest(degrees);
    let seconds = sixty_times_the_rest(minutes);
    let (numerator, denominator) = seconds.parts();
    assert_eq!(
        100_000 * numerator % denominator,
        0,
        "five decimals are enough"
    );
    let (positive, negative) = axis.letters();
    Notation {
        degrees: degrees.rounded_down() as u64,
        minutes: minutes.rounded_down() as u64,
        hundred_thousandths: (100_000 * numerator / denominator) as u64,
        letter: if nd >= 0 { positive } else { negative },
    }
}

/// 60 times what is left of a fraction without its whole part.
fn sixty_times_the_rest(fraction: Fraction) -> Fraction {
    let (numerator, denominator) = fraction.parts();
    Fraction::new(60 * (numerator % denominator), denominator)
}

#[test]
fn writing_is_formula_3_4_except_the_letter_of_zero() {
    for axis in [Axis::Latitude, Axis::Longitude] {
        let mut excepted = BTreeSet::new();
        for nd in angles(axis) {
            let mut expected = formula_3_4(axis, nd);
            let amounts = [
                expected.degrees,
                expected.minutes,
                expected.hundred_thousandths,
            ];
            if amounts == [0; 3] && nd < 0 {
                excepted.insert(nd);
                expected.letter = axis.letters().0;
            }
            assert_eq!(write_notation(axis, nd), Ok(expected), "{nd}");
        }
        assert_eq!(excepted, BTreeSet::from([-1]));
    }
}

#[test]
fn writing_then_reading_returns_every_angle_within_1_nd() {
    for axis in [Axis::Latitude, Axis::Longitude] {
        let mut distances = BTreeSet::new();
        for nd in angles(axis) {
            let written = write_notation(axis, nd).unwrap();
            distances.insert(read_notation(axis, written).unwrap() - nd);
        }
        assert_eq!(distances, BTreeSet::from([-1, 0, 1]));
    }
}

#[test]
fn a_written_notation_is_written_so_again_after_reading() {
    for axis in [Axis::Latitude, Axis::Longitude] {
        for nd in angles(axis) {
            let written = write_notation(axis, nd).unwrap();
            let read = read_notation(axis, written).unwrap();
            assert_eq!(write_notation(axis, read), Ok(written), "{nd}");
        }
    }
}
