//! Grids that end at 90 and 180 degrees, fixes there, and points past these limits.

use crate::answers::convert;
use crate::images::{image_of_kind, without_height, CORRECTIONS, HEIGHTS};
use reference::{grid_check, way_back, way_out, Answer, Fix, Geometry, Number, Point, DEGREE};

/// Corrections of 5 rows and columns in the north-eastern corner of all latitudes and longitudes,
/// or in the south-western one.
fn in_the_corner(north_east: bool) -> Geometry {
    let (south, west) = (90 * DEGREE as i64, 180 * DEGREE as i64);
    let (south, west) = if north_east {
        (south - 4_000, west - 4_000)
    } else {
        (-south, -west)
    };
    Geometry {
        south,
        west,
        ..CORRECTIONS
    }
}

/// The corner of all latitudes and longitudes itself.
fn corner(north_east: bool) -> Point {
    let sign = if north_east { 1 } else { -1 };
    Point {
        latitude: sign * 90 * DEGREE,
        longitude: sign * 180 * DEGREE,
    }
}

fn moved(point: Point, latitude: i128, longitude: i128) -> Point {
    Point {
        latitude: point.latitude + latitude,
        longitude: point.longitude + longitude,
    }
}

/// The image with the same corrections at all nodes of such a grid.
fn level(north_east: bool, corrections: [i32; 2]) -> Vec<u8> {
    let geometries = [in_the_corner(north_east), HEIGHTS];
    image_of_kind(2, geometries, |_, _| corrections, |_, _| [9])
}

type Way = crate::answers::Way;

fn at(way: Way, image: &[u8], point: Point) -> Result<Answer, Number> {
    convert(way, image, Fix { point, height: 0 })
}

#[test]
fn fixes_at_90_and_180_degrees_are_answered_and_1_nd_further_is_a_7() {
    for north_east in [false, true] {
        let image = level(north_east, [0, 0]);
        let given = corner(north_east);
        let sign = given.latitude.signum();
        for way in [way_out as Way, way_back] {
            assert_eq!(at(way, &image, given), without_height(given, 1));
            assert_eq!(at(way, &image, moved(given, sign, 0)), Err(7));
            assert_eq!(at(way, &image, moved(given, 0, sign)), Err(7));
        }
    }
}

/// Question 7 is put to the fix alone: answers may lie past 90 and 180 degrees where the border's
/// corrections are not 0.
#[test]
fn answers_may_lie_past_the_limits() {
    for north_east in [false, true] {
        let given = corner(north_east);
        let sign = given.latitude.signum();
        let outward = sign as i32;
        let back = at(way_back, &level(north_east, [outward, 3 * outward]), given);
        assert_eq!(back, without_height(moved(given, sign, 3 * sign), 1));
        let out = at(way_out, &level(north_east, [-outward, 0]), given);
        assert_eq!(out, without_height(moved(given, sign, 0), 1));
    }
}

/// p1 is past both limits, where the corrections are zero, so that p2 is the fix again.
#[test]
fn points_on_the_way_may_lie_past_the_limits() {
    for north_east in [false, true] {
        let given = corner(north_east);
        let outward = given.latitude.signum() as i32;
        let image = level(north_east, [-5 * outward, -7 * outward]);
        assert_eq!(at(way_out, &image, given), Err(11));
        // From 5 nd inside p1 is on the bound, where the same corrections are found.
        let sign = i128::from(outward);
        let inside = moved(given, -5 * sign, -7 * sign);
        assert_eq!(at(way_out, &image, inside), without_height(given, 2));
    }
}

/// Where the grid passes the check, its border being 0, no answer is past the limits.
#[test]
fn a_grid_that_passes_keeps_its_corner_in_place() {
    for north_east in [false, true] {
        let geometries = [in_the_corner(north_east), HEIGHTS];
        let image = image_of_kind(2, geometries, crate::images::tent, |_, _| [9]);
        assert_eq!(grid_check(&image), Ok([5, 5, 4, 4, 0, 0]));
        let given = corner(north_east);
        let sign = given.latitude.signum();
        for inside in 0..300 {
            let point = moved(given, -sign * inside, -sign * inside);
            let out = at(way_out, &image, point).unwrap();
            let back = at(way_back, &image, out.point).unwrap();
            assert!((back.point.latitude - point.latitude).abs() <= 1);
            assert!((back.point.longitude - point.longitude).abs() <= 1);
        }
    }
}
