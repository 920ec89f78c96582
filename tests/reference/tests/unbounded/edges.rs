//! Points on the bounds of both grids and 1 nd beside them, and ways out across the bounds.

use crate::answers::{answer, convert};
use crate::common::{fix_at, point_at};
use crate::images::{image_of, image_of_kind, without_height, CORRECTIONS, HEIGHTS};
use reference::{open_image, way_back, way_out, Answer, Geometry, Number};

/// Corrections 7 and −7 all over, and heights of 9.
fn level() -> Vec<u8> {
    image_of(|_, _| [7, -7], |_, _| [9])
}

fn corrections_at(latitude: i64, longitude: i64) -> Result<[i128; 2], Number> {
    let image = level();
    let image = open_image(&image).unwrap();
    image.corrections(point_at(latitude, longitude))
}

/// Each bound, and 1 nd beside it, with a point between the others.
#[test]
fn the_bounds_of_the_corrections_are_included_and_beyond_is_zero() {
    for (on, beyond) in [(0, -1), (4_000, 4_001)] {
        for between in [0, 1, 2_345, 4_000] {
            assert_eq!(corrections_at(on, between), Ok([7, -7]));
            assert_eq!(corrections_at(between, on), Ok([7, -7]));
            assert_eq!(corrections_at(beyond, between), Ok([0, 0]));
            assert_eq!(corrections_at(between, beyond), Ok([0, 0]));
        }
        assert_eq!(corrections_at(beyond, beyond), Ok([0, 0]));
    }
}

#[test]
fn the_bounds_of_the_height_grid_are_included_and_beyond_is_none() {
    let image = level();
    let image = open_image(&image).unwrap();
    let height = |latitude, longitude| image.height(point_at(latitude, longitude));
    for latitude in [-400, 0, 1_700] {
        for longitude in [100, 1_234, 1_900] {
            assert_eq!(height(latitude, longitude), Ok(Some(9)));
        }
        assert_eq!([99, 1_901].map(|it| height(latitude, it)), [Ok(None); 2]);
    }
    for longitude in [99, 100, 1_900, 1_901] {
        assert_eq!([-401, 1_701].map(|it| height(it, longitude)), [Ok(None); 2]);
    }
}

fn converted(
    way: crate::answers::Way,
    latitude: i64,
    longitude: i64,
    height: i64,
) -> Result<Answer, Number> {
    convert(way, &level(), fix_at(latitude, longitude, height))
}

/// The height grid is asked at pn going out, and at the given point going back.
#[test]
fn the_bessel_point_decides_whether_there_is_a_height() {
    assert_eq!(converted(way_out, 1_707, 500, 9), answer(1_700, 507, 0, 2));
    let beyond = without_height(point_at(1_701, 507), 2);
    assert_eq!(converted(way_out, 1_708, 500, 9), beyond);
    assert_eq!(converted(way_back, 1_700, 507, 0), answer(1_707, 500, 9, 1));
    let beyond = without_height(point_at(1_708, 500), 1);
    assert_eq!(converted(way_back, 1_701, 507, 0), beyond);
}

/// With corrections on the border that are not 0, as only an image that fails the check has them:
/// from 6 nd north of the southern bound p1 is 1 nd south of it, where the correction is 0.
#[test]
fn ways_out_cross_the_bounds_and_go_on() {
    // p0 = 7, p1 = 0 on the bound, p2 = 0.
    assert_eq!(converted(way_out, 7, 500, 9), answer(0, 507, 0, 2));
    // p0 = 6, p1 = −1, p2 = 6, p3 = −1 and so on.
    assert_eq!(converted(way_out, 6, 500, 9), Err(11));
    // p0 = −1, p1 = −1.
    assert_eq!(converted(way_out, -1, 500, 9), answer(-1, 500, 0, 1));
    // p0 = 4,001, which p1 is too, and then from 4,000 on inside.
    let itself = without_height(point_at(4_001, 500), 1);
    assert_eq!(converted(way_out, 4_001, 500, 9), itself);
    let inside = without_height(point_at(3_993, 507), 2);
    assert_eq!(converted(way_out, 4_000, 500, 9), inside);
}

/// A step of 1 nd across the bound ends the way, one of 2 nd does not.
#[test]
fn the_stop_distance_is_1_nd() {
    let out = |correction: i32| {
        let image = image_of(|_, _| [correction, 0], |_, _| [9]);
        assert_eq!(open_image(&image).unwrap().stop_distance(), 1);
        convert(way_out, &image, fix_at(0, 500, 9))
    };
    assert_eq!(out(1), answer(-1, 500, 0, 1));
    assert_eq!(out(2), Err(11));
}

/// A height grid that has no point in common with the corrections.
#[test]
fn heights_apart_from_the_corrections_are_found() {
    let apart = Geometry {
        south: CORRECTIONS.south + 4_001,
        ..HEIGHTS
    };
    let image = image_of_kind(2, [CORRECTIONS, apart], |_, _| [7, -7], |_, _| [9]);
    let back = |latitude| convert(way_back, &image, fix_at(latitude, 500, 0));
    assert_eq!(back(4_000), without_height(point_at(4_007, 493), 1));
    assert_eq!(back(4_001), answer(4_001, 500, 9, 1));
    assert_eq!(back(6_101), answer(6_101, 500, 9, 1));
    assert_eq!(back(6_102), without_height(point_at(6_102, 500), 1));
}
