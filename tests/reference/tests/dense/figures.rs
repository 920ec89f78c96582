//! Figures on the small image, worked out by hand.

use crate::answers::{answer, convert};
use crate::common::{fix_at, point_at, SOUTH, WEST};
use crate::images::small_image;
use reference::{grid_check, list_back, open_image, way_back, way_out, Answer, Number};

fn back(latitude: i64, longitude: i64, height: i64) -> Result<Answer, Number> {
    convert(
        way_back,
        &small_image(),
        fix_at(latitude, longitude, height),
    )
}

fn out(latitude: i64, longitude: i64, height: i64) -> Result<Answer, Number> {
    convert(way_out, &small_image(), fix_at(latitude, longitude, height))
}

#[test]
fn the_small_image_has_460_bytes() {
    let others = 16 * 8 + 24 * 4 + 80;
    assert_eq!(small_image().len(), 15 * 8 + 36 + others);
}

/// On the dense node of row 2 and column 1. The height is 3 × 19/7 + 4 × 14/9, which is 14.37.
#[test]
fn back_1500_1500_gives_1607_1449_height_440014() {
    let answered = back(1_500, 1_500, 10_000);
    assert_eq!(answered, answer(1_607, 1_449, 440_014, 1));
}

/// In the middle of the south-western dense cell, with 104, 104, 105 and 106: 104.75. The parent's
/// 104.5 would give 105 too, but its −50 another longitude.
#[test]
fn back_1125_1250_gives_1230_1199() {
    assert_eq!(back(1_125, 1_250, 0), answer(1_230, 1_199, 430_012, 1));
    let image = small_image();
    let [latitude, longitude] = open_image(&image)
        .unwrap()
        .exact_corrections(point_at(1_125, 1_250))
        .unwrap();
    assert_eq!(latitude.parts(), (104 * 125_000 + 93_750, 125_000));
    assert_eq!(longitude.parts(), (-51 * 125_000, 125_000));
}

/// On the northern dense bound −51, and 1 nd north of it the parent's −50, with 108.004.
#[test]
fn back_2000_1500_takes_the_dense_nodes_and_back_2001_1500_the_parent() {
    assert_eq!(back(2_000, 1_500, 0), answer(2_108, 1_449, 430_017, 1));
    assert_eq!(back(2_001, 1_500, 0), answer(2_109, 1_450, 430_017, 1));
}

/// p0 has 106 + 107/250 + 449/500, so p1 is the point on the node, where 107 is found again.
#[test]
fn out_1607_1449_gives_1500_1500_count_2() {
    let answered = out(1_607, 1_449, 440_014);
    assert_eq!(answered, answer(1_500, 1_500, 10_000, 2));
}

/// p0 is north of the dense grid, with the parent's 108.2 and −50; p1, (1942, 1550), is in it, with
/// 107.98 and −51, so p2 is 1 nd further east.
#[test]
fn out_2050_1500_goes_into_the_dense_grid() {
    assert_eq!(out(2_050, 1_500, 430_016), answer(1_942, 1_551, 0, 2));
}

/// p0 is on the western dense bound, with −51 and 105; p1, (1145, 1051), is in the grid too.
/// From (1250, 949) on, west of the bound, p0 has −50 and 105; p1, (1145, 999), is west of it too.
#[test]
fn out_1250_1000_stays_and_out_1250_949_does_not_come_in() {
    assert_eq!(out(1_250, 1_000, 430_011), answer(1_145, 1_051, 0, 2));
    assert_eq!(out(1_250, 949, 430_011), answer(1_145, 999, 0, 2));
}

/// The coarse steps, 4 and 0, though the dense ones are 2 and 1.
#[test]
fn the_check_passes_with_4_0_0_0_3_4() {
    assert_eq!(grid_check(&small_image()), Ok([4, 0, 0, 0, 3, 4]));
}

#[test]
fn a_list_has_answers_from_both_grids() {
    let fixes = [[1_500, 1_500, 10_000], [2_001, 1_500, 0], [3_001, 1_500, 0]]
        .map(|[latitude, longitude, height]| [SOUTH + latitude, WEST + longitude, height])
        .concat();
    let answers = [
        [SOUTH + 1_607, WEST + 1_449, 440_014, 1, 0],
        [SOUTH + 2_109, WEST + 1_450, 430_017, 1, 0],
        [0, 0, 0, 0, 8],
    ];
    assert_eq!(list_back(&small_image(), &fixes, 15), Ok(answers.concat()));
}
