//! Figures on the small image, worked out by hand.

use crate::answers::{answer, convert};
use crate::common::{fix_at, grid_g, point_at, SOUTH, WEST};
use crate::images::{image_of_kind, sloping_heights, small_image, tent, without_height};
use crate::images::{CORRECTIONS, HEIGHTS};
use reference::{grid_check, list_back, list_out, way_back, way_out, Answer, Number};

fn back(latitude: i64, longitude: i64, height: i64) -> Result<Answer, Number> {
    let fix = fix_at(latitude, longitude, height);
    convert(way_back, &small_image(), fix)
}

fn out(latitude: i64, longitude: i64, height: i64) -> Result<Answer, Number> {
    let fix = fix_at(latitude, longitude, height);
    convert(way_out, &small_image(), fix)
}

/// On a node of each grid.
#[test]
fn back_1000_1000_gives_1005_996_height_440010() {
    let answered = back(1_000, 1_000, 10_000);
    assert_eq!(answered, answer(1_005, 996, 440_010, 1));
}

/// p0 has 4.98 and −3.984, so p1 is the point on the nodes, where 5 and −4 are found again.
#[test]
fn out_1005_996_gives_1000_1000_count_2() {
    let answered = out(1_005, 996, 440_010);
    assert_eq!(answered, answer(1_000, 1_000, 10_000, 2));
}

/// On the middle node of the corrections, and off the height grid.
#[test]
fn back_2000_2000_gives_2010_1992_and_no_height() {
    let answered = back(2_000, 2_000, 10_000);
    assert_eq!(answered, without_height(point_at(2_010, 1_992), 1));
}

/// p0 has 9.95 and −7.96, so p1 is the middle node, whose 10 and −8 lead to it again.
#[test]
fn out_2010_1992_gives_2000_2000_count_2_and_no_height() {
    let answered = out(2_010, 1_992, 10_000);
    assert_eq!(answered, without_height(point_at(2_000, 2_000), 2));
}

/// South of the corrections and on the height grid: 3 × 399/700 + 4 × 400/900 is 3.49.
#[test]
fn minus_1_500_is_its_own_bessel_point_with_height_430003() {
    assert_eq!(back(-1, 500, 7), answer(-1, 500, 430_010, 1));
    assert_eq!(out(-1, 500, 430_010), answer(-1, 500, 7, 1));
}

/// The height grid's corner, and 1 nd north of it: 5 + 5 × 0.63 is 8.15, −4 − 4 × 0.63 is −6.52.
#[test]
fn back_1700_1900_has_a_height_and_back_1701_1900_none() {
    assert_eq!(back(1_700, 1_900, 0), answer(1_708, 1_893, 430_017, 1));
    let beyond = without_height(point_at(1_709, 1_893), 1);
    assert_eq!(back(1_701, 1_900, 0), beyond);
}

#[test]
fn far_away_a_point_is_its_own_bessel_point_without_a_height() {
    for (latitude, longitude) in [
        (-1_000_000, 500),
        (500, 1_000_000),
        (38_000_000_000, 175_000_000_000),
        (-142_000_000_000, -185_000_000_000),
    ] {
        let itself = without_height(point_at(latitude, longitude), 1);
        assert_eq!(back(latitude, longitude, 5), itself);
        assert_eq!(out(latitude, longitude, 5), itself);
    }
}

#[test]
fn the_check_passes_with_5_5_4_4_3_4() {
    assert_eq!(grid_check(&small_image()), Ok([5, 5, 4, 4, 3, 4]));
}

/// "Off the height grid the answer's height is 0 and its number 100", with the rest as usual.
#[test]
fn a_list_has_100_height_0_and_the_other_values() {
    let numbers = |rows: &[[i64; 3]]| {
        let fix = |row: &[i64; 3]| [SOUTH + row[0], WEST + row[1], row[2]];
        rows.iter().flat_map(fix).collect::<Vec<_>>()
    };
    let fixes = numbers(&[
        [2_010, 1_992, 10_000],
        [1_005, 996, 440_010],
        [-5_000, 0, 3],
        [0, 0, 100_000_001],
    ]);
    let answers = [
        [SOUTH + 2_000, WEST + 2_000, 0, 2, 100],
        [SOUTH + 1_000, WEST + 1_000, 10_000, 2, 0],
        [SOUTH - 5_000, WEST, 0, 1, 100],
        [0, 0, 0, 0, 7],
    ];
    assert_eq!(list_out(&small_image(), &fixes, 20), Ok(answers.concat()));
    let fixes = numbers(&[[2_000, 2_000, -9], [1_000, 1_000, 10_000]]);
    let answers = [
        [SOUTH + 2_010, WEST + 1_992, 0, 1, 100],
        [SOUTH + 1_005, WEST + 996, 440_010, 1, 0],
    ];
    assert_eq!(list_back(&small_image(), &fixes, 10), Ok(answers.concat()));
}

/// Kind 0 keeps its questions over the same nodes, as edition 1 does.
#[test]
fn the_same_image_of_kind_0_gives_8_and_15() {
    let image = image_of_kind(0, [CORRECTIONS, HEIGHTS], tent, sloping_heights);
    let number =
        |way, latitude, longitude| convert(way, &image, fix_at(latitude, longitude, 440_010)).err();
    for (latitude, longitude, wanted) in [
        (1_005, 996, None),
        (2_010, 1_992, Some(15)),
        (-1, 500, Some(8)),
        (4_001, 500, Some(8)),
    ] {
        assert_eq!(number(way_out, latitude, longitude), wanted);
    }
    assert_eq!(convert(way_back, &image, fix_at(-1, 500, 0)), Err(8));
    assert_eq!(convert(way_out, &grid_g(), fix_at(2_050, 500, 0)), Err(8));
    assert_eq!(grid_check(&image), Ok([5, 5, 4, 4, 3, 4]));
}
