//! Every figure of document 01's "Grid G and its figures" on images, starred and unstarred, and
//! the figure of its first slip, each by name.

mod answers;
mod common;
mod rounding;

use answers::{answer, convert};
use common::{fix_at, g_node, grid_g, image_of, point_at, G_TRAILER};
use reference::{grid_check, open_image, way_back, way_out, Answer, Fix, Image, Number, Point};

/// G with other latitude corrections by row.
fn g_with_latitude_corrections(by_row: [i32; 3]) -> Vec<u8> {
    image_of(&G_TRAILER, |row, column| {
        let [_, longitude, height] = g_node(row, column);
        [by_row[row as usize], longitude, height]
    })
}

#[test]
fn g_has_148_bytes() {
    assert_eq!(grid_g().len(), 148);
}

#[test]
fn starred_back_500_500_gives_602_450_height_440003_count_1() {
    let answered = convert(way_back, &grid_g(), fix_at(500, 500, 10_000));
    assert_eq!(answered, answer(602, 450, 440_003, 1));
}

#[test]
fn starred_out_602_450_gives_500_500_height_10000_count_2() {
    let answered = convert(way_out, &grid_g(), fix_at(602, 450, 440_003));
    assert_eq!(answered, answer(500, 500, 10_000, 2));
}

#[test]
fn starred_back_2000_2000_gives_2108_1950_height_430010() {
    let answered = convert(way_back, &grid_g(), fix_at(2_000, 2_000, 0));
    assert_eq!(answered, answer(2_108, 1_950, 430_010, 1));
}

#[test]
fn starred_back_2001_2000_gives_8() {
    let answered = convert(way_back, &grid_g(), fix_at(2_001, 2_000, 0));
    assert_eq!(answered, Err(8));
}

#[test]
fn starred_back_125_0_has_latitude_correction_101() {
    let image = grid_g();
    let opened = open_image(&image).unwrap();
    let [correction, _] = opened.corrections(point_at(125, 0)).unwrap();
    assert_eq!(correction, 101);
    let answered = convert(way_back, &image, fix_at(125, 0, 0));
    assert_eq!(answered, answer(125 + 101, -50, 430_000, 1));
}

/// G "with longitude correction −100 − column".
fn sloping_g() -> Vec<u8> {
    image_of(&G_TRAILER, |row, column| {
        let [latitude, _, height] = g_node(row, column);
        [latitude, -100 - column, height]
    })
}

/// The longitude correction of G's sloping variant, looked up on the southern bound.
fn sloping_longitude_correction(longitude: i64) -> i128 {
    let image = sloping_g();
    let opened = open_image(&image).unwrap();
    let [_, correction] = opened.corrections(point_at(0, longitude)).unwrap();
    correction
}

#[test]
fn starred_sloping_longitude_corrections_at_0_500_give_minus_100() {
    assert_eq!(sloping_longitude_correction(500), -100);
}

#[test]
fn starred_sloping_longitude_corrections_at_0_700_give_minus_101() {
    assert_eq!(sloping_longitude_correction(700), -101);
}

#[test]
fn starred_out_50_500_gives_10() {
    assert_eq!(convert(way_out, &grid_g(), fix_at(50, 500, 0)), Err(10));
}

#[test]
fn out_2050_500_gives_8() {
    assert_eq!(convert(way_out, &grid_g(), fix_at(2_050, 500, 0)), Err(8));
}

/// G with "latitude corrections 0, 1000, 2000 by row, longitude corrections 0".
fn steep_grid() -> Vec<u8> {
    image_of(&G_TRAILER, |row, column| {
        [1_000 * row, 0, g_node(row, column)[2]]
    })
}

#[test]
fn starred_steep_grid_out_1500_500_gives_11() {
    let answered = convert(way_out, &steep_grid(), fix_at(1_500, 500, 0));
    assert_eq!(answered, Err(11));
}

#[test]
fn starred_steep_grid_check_gives_12() {
    assert_eq!(grid_check(&steep_grid()), Err(12));
}

#[test]
fn starred_100_110_120_out_602_450_gives_497_500_height_10000_count_2() {
    let image = g_with_latitude_corrections([100, 110, 120]);
    let answered = convert(way_out, &image, fix_at(602, 450, 440_003));
    assert_eq!(answered, answer(497, 500, 10_000, 2));
}

/// The first slip: "Corrections looked up at the ETRS89 point and subtracted a single time".
fn single_subtraction(image: &Image, fix: Fix) -> Result<Answer, Number> {
    let [latitude, longitude] = image.corrections(fix.point)?;
    let point = Point {
        latitude: fix.point.latitude - latitude,
        longitude: fix.point.longitude - longitude,
    };
    Ok(Answer {
        point,
        height: image.height(point)?.map(|it| fix.height - it),
        count: 1,
    })
}

#[test]
fn slip_100_110_120_single_subtraction_at_the_etrs89_point_gives_496() {
    let image = g_with_latitude_corrections([100, 110, 120]);
    let slipped = convert(single_subtraction, &image, fix_at(602, 450, 440_003));
    assert_eq!(slipped, answer(496, 500, 10_000, 1));
}

#[test]
fn slip_on_g_single_subtraction_differs_only_in_its_count() {
    let fix = fix_at(602, 450, 440_003);
    let slipped = convert(single_subtraction, &grid_g(), fix).unwrap();
    let right = convert(way_out, &grid_g(), fix).unwrap();
    assert_eq!((slipped.count, right.count), (1, 2));
    assert_eq!(slipped, Answer { count: 1, ..right });
}

#[test]
fn latitude_corrections_100_110_120_pass_the_check() {
    let image = g_with_latitude_corrections([100, 110, 120]);
    assert_eq!(grid_check(&image), Ok([10, 0, 0, 0, 0, 5]));
}

#[test]
fn latitude_corrections_100_111_122_give_12() {
    let image = g_with_latitude_corrections([100, 111, 122]);
    assert_eq!(grid_check(&image), Err(12));
}

#[test]
fn one_node_with_correction_10000001_gives_9() {
    for value in 0..2 {
        for bad in 0..9 {
            let image = image_of(&G_TRAILER, |row, column| {
                let mut node = g_node(row, column);
                if 3 * row + column == bad {
                    node[value] = 10_000_001;
                }
                node
            });
            assert_eq!(grid_check(&image), Err(9));
        }
    }
}

#[test]
fn gridcheck_of_g_passed_4_0_0_0_0_5() {
    assert_eq!(grid_check(&grid_g()), Ok([4, 0, 0, 0, 0, 5]));
}
