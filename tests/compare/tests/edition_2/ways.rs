//! Where 15 stands among the other numbers, and where points lie to the height grid.

use super::STREAM;
use crate::made_up::{fix, for_each_point, number_of, place_by_bounds};
use compare::{points_until_the_stop, stop_rule_holds, Way};
use reference::{way_back, way_out, Number, Point};
use std::collections::BTreeSet;

/// The way out's number where the image is fit and the point in the bounds, with what 15 has to
/// do with it: whether p0 and the last point lie on the height grid, and whether the stop rule
/// held there.
fn ends_of_the_way_out() -> BTreeSet<(Number, bool, bool, bool)> {
    let mut ends = BTreeSet::new();
    for_each_point(STREAM, Way::Out, |image, point| {
        let points = points_until_the_stop(image, point);
        let on = |point: &Point| image.height_geometry().contains(*point);
        let (Some(first), Some(last)) = (points.first(), points.last()) else {
            return;
        };
        let stops = points.len() > 1 && stop_rule_holds(1, points[points.len() - 2], *last);
        let number = number_of(way_out(image, fix(point)));
        ends.insert((number, on(first), on(last), stops));
    });
    ends
}

#[test]
fn out_15_comes_up_beside_every_number_before_and_after_it() {
    let ends = ends_of_the_way_out();
    for first in [false, true] {
        // Values, and 9 for heights, need the last point on the height grid; 15 needs it off.
        assert!(ends.contains(&(0, first, true, true)), "{ends:?}");
        assert!(ends.contains(&(9, first, true, true)), "{ends:?}");
        assert!(ends.contains(&(15, first, false, true)), "{ends:?}");
        for last_is_on in [false, true] {
            for number in [9, 10, 11] {
                let end = (number, first, last_is_on, false);
                assert!(ends.contains(&end), "{end:?} {ends:?}");
            }
        }
    }
}

#[test]
fn back_15_comes_up_beside_every_number_before_and_after_it() {
    let mut met = BTreeSet::new();
    for_each_point(STREAM, Way::Back, |image, point| {
        let number = number_of(way_back(image, fix(point)));
        let corrections = number_of(image.corrections(point));
        met.insert((number, corrections, number_of(image.height(point))));
    });
    // The number, that of the corrections, and that of the height.
    for (number, corrections, height) in [
        (0, 0, 0),
        (8, 8, 0),
        (8, 8, 15),
        (9, 9, 0),
        (9, 9, 15),
        (9, 0, 9),
        (9, 9, 9),
        (15, 0, 15),
    ] {
        let wanted = (number, corrections, height);
        assert!(met.contains(&wanted), "{wanted:?} {met:?}");
    }
}

/// In edition 1 such a way out is a 9.
#[test]
fn ways_out_are_answered_whose_last_correction_cell_is_unfit() {
    let mut met = false;
    for_each_point(STREAM, Way::Out, |image, point| {
        let answer = way_out(image, fix(point));
        met |= answer.is_ok_and(|it| image.corrections(it.point) == Err(9));
    });
    assert!(met);
}

#[test]
fn points_lie_on_and_beside_every_bound_and_corner_of_the_height_grid() {
    let mut places = BTreeSet::new();
    for_each_point(STREAM, Way::Back, |image, point| {
        if image.in_bounds(point) {
            places.insert(place_by_bounds(image.height_geometry(), point));
        }
    });
    assert_eq!(places.len(), 16, "{places:?}");
}

#[test]
fn ways_out_end_on_and_beside_every_bound_of_the_height_grid() {
    let mut places = BTreeSet::new();
    for_each_point(STREAM, Way::Out, |image, point| {
        let points = points_until_the_stop(image, point);
        if let [.., before, last] = points.as_slice() {
            if stop_rule_holds(1, *before, *last) {
                places.insert(place_by_bounds(image.height_geometry(), *last));
            }
        }
    });
    assert_eq!(places.len(), 16, "{places:?}");
}
