//! Every figure of document 01 on degree notation, each by name, that of −1 as document 02's note 7
//! changes it, and question 13's limits.

use reference::{read_notation, write_notation, Axis, Notation};

fn notation(degrees: u64, minutes: u64, hundred_thousandths: u64, letter: u8) -> Notation {
    Notation {
        degrees,
        minutes,
        hundred_thousandths,
        letter,
    }
}

#[test]
fn starred_52_5_29_87000_north_is_52091630556() {
    let read = read_notation(Axis::Latitude, notation(52, 5, 2_987_000, b'N'));
    assert_eq!(read, Ok(52_091_630_556));
}

#[test]
fn starred_52091630556_is_written_52_5_29_87000_north_again() {
    let written = write_notation(Axis::Latitude, 52_091_630_556);
    assert_eq!(written, Ok(notation(52, 5, 2_987_000, b'N')));
}

#[test]
fn starred_16666666_is_0_1_0_00000() {
    let written = write_notation(Axis::Latitude, 16_666_666);
    assert_eq!(written, Ok(notation(0, 1, 0, b'N')));
}

#[test]
fn starred_16666665_is_0_0_59_99999() {
    let written = write_notation(Axis::Longitude, 16_666_665);
    assert_eq!(written, Ok(notation(0, 0, 5_999_999, b'E')));
}

#[test]
fn minus_1_is_0_0_0_00000_north() {
    let written = write_notation(Axis::Latitude, -1);
    assert_eq!(written, Ok(notation(0, 0, 0, b'N')));
}

#[test]
fn a_written_total_of_zero_is_north_or_east() {
    let zero = |letter| Ok(notation(0, 0, 0, letter));
    for nd in [-1, 0, 1] {
        assert_eq!(write_notation(Axis::Latitude, nd), zero(b'N'));
        assert_eq!(write_notation(Axis::Longitude, nd), zero(b'E'));
    }
}

#[test]
fn a_written_total_of_1_follows_the_sign() {
    let one = |letter| Ok(notation(0, 0, 1, letter));
    for size in 2..=4 {
        assert_eq!(write_notation(Axis::Latitude, size), one(b'N'));
        assert_eq!(write_notation(Axis::Latitude, -size), one(b'S'));
        assert_eq!(write_notation(Axis::Longitude, size), one(b'E'));
        assert_eq!(write_notation(Axis::Longitude, -size), one(b'W'));
    }
}

#[test]
fn zero_with_any_letter_of_the_axis_is_read() {
    for (axis, letters) in [(Axis::Latitude, b"NS"), (Axis::Longitude, b"EW")] {
        for letter in letters {
            assert_eq!(read_notation(axis, notation(0, 0, 0, *letter)), Ok(0));
        }
    }
}

#[test]
fn question_13_in_reading_at_and_past_each_limit() {
    let latitude = |degrees, minutes, rest, letter| {
        read_notation(Axis::Latitude, notation(degrees, minutes, rest, letter))
    };
    assert_eq!(latitude(90, 0, 0, b'S'), Ok(-90_000_000_000));
    assert_eq!(latitude(90, 0, 1, b'S'), Err(13));
    assert_eq!(latitude(0, 59, 0, b'N'), Ok(983_333_333));
    assert_eq!(latitude(0, 60, 0, b'N'), Err(13));
    assert_eq!(latitude(0, 0, 5_999_999, b'N'), Ok(16_666_664));
    assert_eq!(latitude(0, 0, 6_000_000, b'N'), Err(13));
    assert_eq!(latitude(1 << 55, 0, 0, b'N'), Err(13));
    let longitude = read_notation(Axis::Longitude, notation(180, 0, 0, b'W'));
    assert_eq!(longitude, Ok(-180_000_000_000));
}

#[test]
fn question_13_refuses_every_byte_but_the_axis_letters() {
    for letter in 0..=u8::MAX {
        let read = |axis| read_notation(axis, notation(1, 0, 0, letter)).is_ok();
        assert_eq!(read(Axis::Latitude), letter == b'N' || letter == b'S');
        assert_eq!(read(Axis::Longitude), letter == b'E' || letter == b'W');
    }
}

#[test]
fn question_13_in_writing_at_and_past_the_limits() {
    for (axis, limit) in [
        (Axis::Latitude, 90_000_000_000),
        (Axis::Longitude, 180_000_000_000),
    ] {
        for sign in [-1, 1] {
            assert!(write_notation(axis, sign * limit).is_ok());
            assert_eq!(write_notation(axis, sign * (limit + 1)), Err(13));
        }
        assert_eq!(write_notation(axis, i64::MIN), Err(13));
    }
}

#[test]
fn reading_then_writing_returns_the_notation() {
    let mut rest = 1;
    for degrees in 0..90 {
        rest = (rest * 48_271 + 11) % 360_000_000;
        let given = notation(degrees, rest / 6_000_000, rest % 6_000_000, b'S');
        let nd = read_notation(Axis::Latitude, given).unwrap();
        assert_eq!(write_notation(Axis::Latitude, nd), Ok(given));
    }
}
