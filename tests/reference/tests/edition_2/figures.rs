//! Figures on the small image, worked out by hand.

use crate::answers::{answer, convert};
use crate::common::{fix_at, grid_g, point_at, SOUTH, WEST};
use crate::images::{image_of, sloping_heights, small_image};
use reference::{grid_check, list_back, open_image, way_back, way_out};

#[test]
fn the_small_image_has_200_bytes() {
    assert_eq!(small_image().len(), 9 * 8 + 12 * 4 + 80);
}

/// 900 of 700 north and 400 of 900 east of the height grid's corner: 3 × 9/7 + 4 × 4/9 is 5.63.
#[test]
fn back_500_500_gives_602_450_height_440006() {
    let answered = convert(way_back, &small_image(), fix_at(500, 500, 10_000));
    assert_eq!(answered, answer(602, 450, 440_006, 1));
}

#[test]
fn out_602_450_gives_500_500_height_10000_count_2() {
    let answered = convert(way_out, &small_image(), fix_at(602, 450, 440_006));
    assert_eq!(answered, answer(500, 500, 10_000, 2));
}

#[test]
fn corrections_and_angles_are_those_of_g() {
    for (latitude, longitude) in [(500, 500), (0, 100), (1_700, 1_900), (125, 300)] {
        let fix = fix_at(latitude, longitude, 0);
        let two = convert(way_back, &small_image(), fix).unwrap();
        let one = convert(way_back, &grid_g(), fix).unwrap();
        assert_eq!((two.point, two.count), (one.point, one.count));
    }
}

#[test]
fn the_exact_height_is_a_fraction_of_the_height_grids_spacings() {
    let image = small_image();
    let exact = open_image(&image).unwrap().exact_height(point_at(500, 500));
    let (numerator, denominator) = exact.unwrap().unwrap().parts();
    assert_eq!(denominator, 700 * 900);
    assert_eq!(numerator, 430_000 * 630_000 + 3 * 900 * 900 + 4 * 400 * 700);
}

/// The north-eastern corner of the height grid: 3 × 3 + 4 × 2 is 17; 100 + 4 × 1.7 is 106.8.
#[test]
fn the_height_grids_bounds_are_included() {
    let back = |latitude, longitude| {
        let fix = fix_at(latitude, longitude, 0);
        convert(way_back, &small_image(), fix)
    };
    assert_eq!(back(1_700, 1_900), answer(1_807, 1_850, 430_017, 1));
    assert_eq!(back(1_701, 1_900), Err(15));
    assert_eq!(back(1_700, 1_901), Err(15));
    assert_eq!(back(500, 100), answer(602, 50, 430_004, 1));
    assert_eq!(back(500, 99), Err(15));
    // The height grid begins south of G, so G's southern bound is in it, and no point beyond.
    assert_eq!(back(0, 100), answer(100, 50, 430_002, 1));
    assert_eq!(back(-1, 100), Err(8));
}

/// p0 is off the height grid here, which nothing asks; pn is on its corner.
#[test]
fn out_1807_1850_ends_on_the_height_grids_corner() {
    let answered = convert(way_out, &small_image(), fix_at(1_807, 1_850, 430_017));
    assert_eq!(answered, answer(1_700, 1_900, 0, 2));
}

#[test]
fn out_1808_1850_ends_1_nd_off_the_height_grid() {
    let answered = convert(way_out, &small_image(), fix_at(1_808, 1_850, 430_017));
    assert_eq!(answered, Err(15));
}

#[test]
fn an_exact_half_of_the_heights_is_rounded_up() {
    let image = image_of(|_, _| [0, 0], |row, _| [-row]);
    // 350 of 700 north of a row: −1.5 gives −1; 351 gives −2.
    let back = |latitude| convert(way_back, &image, fix_at(latitude, 100, 0));
    assert_eq!(back(650), answer(650, 100, -1, 1));
    assert_eq!(back(651), answer(651, 100, -2, 1));
}

#[test]
fn the_check_passes_with_4_0_0_0_3_4() {
    assert_eq!(grid_check(&small_image()), Ok([4, 0, 0, 0, 3, 4]));
}

/// 100 × (4 × 900 + 4 × 700) is above 700 × 900, though 100 × (4 + 4) × 1,000 is below
/// 1,000 × 1,000.
#[test]
fn height_steps_4_and_4_give_12() {
    let image = image_of(
        |_, _| [100, -50],
        |row, column| [430_000 + 4 * row + 4 * column],
    );
    assert_eq!(grid_check(&image), Err(12));
}

#[test]
fn a_list_has_a_15_among_its_answers() {
    let fixes = [[1_701, 1_900, 0], [500, 500, 10_000], [2_001, 500, 0]]
        .map(|[latitude, longitude, height]| [SOUTH + latitude, WEST + longitude, height])
        .concat();
    let answers = [
        [0, 0, 0, 0, 15],
        [SOUTH + 602, WEST + 450, 440_006, 1, 0],
        [0, 0, 0, 0, 8],
    ];
    assert_eq!(list_back(&small_image(), &fixes, 15), Ok(answers.concat()));
}

#[test]
fn heights_do_not_depend_on_the_correction_grid() {
    let image = image_of(|row, column| [-row, column], sloping_heights);
    let (one, other) = (open_image(&image).unwrap(), small_image());
    let other = open_image(&other).unwrap();
    for latitude in (-400..=1_700).step_by(150) {
        let point = point_at(latitude, 1_000);
        assert_eq!(one.height(point), other.height(point));
    }
}
