//! The header's numbers: where they stand, each limit of questions 3 to 5, and numbers that are
//! not finite.

use crate::files::{converted, converted_header, file_of, header, SOME_HEIGHT};
use reference::{FileHeader, Geometry, Number};

const NOT_FINITE: [u64; 5] = [
    0x7FF0 << 48,
    0xFFF0 << 48,
    0x7FF8 << 48,
    0xFFF8 << 48,
    (0x7FF0 << 48) + 1,
];

/// The number that the small file gets after a change of its header, its nodes as many as the
/// header then says.
fn number_after(change: impl Fn(&mut FileHeader)) -> Option<Number> {
    let mut header = header();
    change(&mut header);
    converted_header(&header).err()
}

#[test]
fn the_header_is_big_endian_in_the_notes_order() {
    let mut file = Vec::new();
    for angle in [[0x40, 0x4A], [0xC0, 0x14], [0x3F, 0x90], [0x3F, 0xA0]] {
        file.extend(angle);
        file.extend([0; 6]);
    }
    file.extend([0, 0, 0, 2, 0, 0, 0, 3]);
    file.extend(SOME_HEIGHT.to_be_bytes().repeat(6));
    let geometry = Geometry {
        south: 52_000_000_000,
        west: -5_000_000_000,
        latitude_spacing: 15_625_000,
        longitude_spacing: 31_250_000,
        rows: 2,
        columns: 3,
    };
    assert_eq!(converted(&file).map(|it| it.geometry), Ok(geometry));
    let header = FileHeader::read(&file).expect("more than 40 bytes");
    assert_eq!(header.write(), file[..40]);
}

#[test]
fn a_number_that_is_not_finite_is_16() {
    for bits in NOT_FINITE {
        assert_eq!(number_after(|it| it.south = bits), Some(16));
        assert_eq!(number_after(|it| it.west = bits), Some(16));
        assert_eq!(number_after(|it| it.latitude_spacing = bits), Some(16));
        assert_eq!(number_after(|it| it.longitude_spacing = bits), Some(16));
    }
    assert_eq!(number_after(|_| {}), None);
}

#[test]
fn the_largest_finite_numbers_are_16() {
    for bits in [0x7FEF_FFFF_FFFF_FFFF, 0xFFEF_FFFF_FFFF_FFFF] {
        assert_eq!(number_after(|it| it.south = bits), Some(16));
        assert_eq!(number_after(|it| it.west = bits), Some(16));
        assert_eq!(number_after(|it| it.latitude_spacing = bits), Some(16));
        assert_eq!(number_after(|it| it.longitude_spacing = bits), Some(16));
    }
}

#[test]
fn question_3_rows_and_columns() {
    let small = 0.000_000_001_f64.to_bits();
    let number = |rows, columns| {
        number_after(|it| {
            (it.latitude_spacing, it.longitude_spacing) = (small, small);
            (it.rows, it.columns) = (rows, columns);
        })
    };
    for count in [i32::MIN, -4_096, -2, -1, 0, 1, 4_097, i32::MAX] {
        assert_eq!(number(count, 2), Some(16));
        assert_eq!(number(2, count), Some(16));
        assert_eq!(number(count, count), Some(16));
    }
    for count in [2, 3, 4_095, 4_096] {
        assert_eq!(number(count, 2), None);
        assert_eq!(number(2, count), None);
    }
}

#[test]
fn question_4_the_spacings() {
    let number = |spacing: f64| {
        let bits = spacing.to_bits();
        let latitude = number_after(|it| it.latitude_spacing = bits);
        let longitude = number_after(|it| it.longitude_spacing = bits);
        assert_eq!(latitude, longitude);
        latitude
    };
    let fit = [0.000_000_000_500_1, 0.000_000_001, 0.1, 0.100_000_000_499_9];
    for spacing in fit {
        assert_eq!(number(spacing), None);
    }
    let unfit = [
        0.0,
        -0.0,
        f64::from_bits(1),
        0.000_000_000_499_9,
        -0.000_000_001,
        -0.015_625,
        0.100_000_000_500_1,
        1.0,
        4.294_967_297,
        -4.294_967_295,
    ];
    for spacing in unfit {
        assert_eq!(number(spacing), Some(16));
    }
}

/// Spacings of 1/64 degree: north is 1/32 degree north of the south bound, and east 1/64 degree
/// east of the west bound.
#[test]
fn question_5_the_bounds() {
    let south = |angle: f64| number_after(|it| it.south = angle.to_bits());
    let west = |angle: f64| number_after(|it| it.west = angle.to_bits());
    for angle in [-90.0, -90.000_000_000_499, 89.968_75, 89.968_750_000_499] {
        assert_eq!(south(angle), None);
    }
    for angle in [-90.000_000_000_501, 89.968_750_000_501, 90.0, -1e30, 1e30] {
        assert_eq!(south(angle), Some(16));
    }
    for angle in [-180.0, -180.000_000_000_499, 179.984_375] {
        assert_eq!(west(angle), None);
    }
    assert_eq!(west(179.984_375_000_499), None);
    for angle in [-180.000_000_000_501, 179.984_375_000_501, 180.0] {
        assert_eq!(west(angle), Some(16));
    }
}

/// The limits are those of the rounded numbers: the spacing 1/1024 degree, 976,562.5 nd, is
/// rounded up before north is found.
#[test]
fn north_is_found_from_rounded_numbers() {
    let number = |south: f64| {
        number_after(|it| {
            it.south = south.to_bits();
            it.latitude_spacing = 0.000_976_562_5_f64.to_bits();
        })
    };
    // 90 degrees less two spacings, exactly and with the spacing rounded.
    assert_eq!(number(89.998_046_875), Some(16));
    assert_eq!(number(89.998_046_874), None);
}

#[test]
fn rows_times_columns_past_32_and_64_bits_is_16() {
    for (rows, columns) in [
        (65_536, 65_536),
        (32_768, 32_768),
        (i32::MIN, i32::MIN),
        (i32::MAX, i32::MAX),
        (i32::MIN, 2),
        (-1, -6),
    ] {
        let header = FileHeader {
            rows,
            columns,
            ..header()
        };
        for nodes in [0, 6] {
            let file = file_of(&header, &vec![SOME_HEIGHT; nodes]);
            assert_eq!(converted(&file).err(), Some(16));
        }
    }
}
