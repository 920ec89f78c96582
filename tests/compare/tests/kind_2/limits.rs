//! Fixes at 90 and 180 degrees, grids that reach there, and points past them.

use super::{unbounded_grids, STREAM};
use crate::made_up::{checked_images, fix, for_each_point, number_of};
use compare::{points_until_the_stop, Way};
use reference::{grid_check, way_back, way_out, Point, DEGREE};
use std::collections::BTreeSet;

/// How far each angle is past its limit, below 0 if it is within, with the angle's sign.
fn past_the_limits(point: Point) -> [(&'static str, i128, i128); 2] {
    let past = |name, angle: i128, limit| (name, angle.signum(), angle.abs() - limit);
    [
        past("latitude", point.latitude, 90 * DEGREE),
        past("longitude", point.longitude, 180 * DEGREE),
    ]
}

/// The angles that are past their limits, with their sign.
fn angles_past(point: Point) -> impl Iterator<Item = (&'static str, i128)> {
    let past = past_the_limits(point).into_iter();
    past.filter(|it| it.2 > 0).map(|it| (it.0, it.1))
}

/// At each limit exactly, answered, in the bounds of the corrections and outside; 1 nd further it
/// is a 7.
#[test]
fn fixes_lie_at_every_limit_and_1_nd_past_it() {
    let (mut at, mut past, mut corners) = (BTreeSet::new(), BTreeSet::new(), BTreeSet::new());
    for_each_point(STREAM, Way::Out, |image, point| {
        if !image.is_unbounded() {
            return;
        }
        let number = number_of(way_out(image, fix(point)));
        let [latitude, longitude] = past_the_limits(point);
        for (name, sign, distance) in [latitude, longitude] {
            match distance {
                0 if number == 0 => drop(at.insert((name, sign, image.in_bounds(point)))),
                1 if number == 7 => drop(past.insert((name, sign))),
                _ => {}
            }
        }
        if (latitude.2, longitude.2, number) == (0, 0, 0) {
            corners.insert((latitude.1, longitude.1));
        }
    });
    assert_eq!(at.len(), 2 * 2 * 2, "{at:?}");
    assert_eq!(past.len(), 2 * 2, "{past:?}");
    assert_eq!(corners.len(), 4, "{corners:?}");
}

/// Where the border's corrections are not zero: in the answer, and at a point before it or of a way
/// that does not end.
#[test]
fn ways_out_go_past_every_limit() {
    let mut met = BTreeSet::new();
    for_each_point(STREAM, Way::Out, |image, given| {
        if angles_past(given).next().is_some() {
            return;
        }
        let answer = way_out(image, fix(given)).map(|it| it.point);
        for point in points_until_the_stop(image, given).into_iter().skip(1) {
            let is_answer = answer == Ok(point);
            met.extend(angles_past(point).map(|(name, sign)| (name, sign, is_answer)));
        }
    });
    assert_eq!(met.len(), 2 * 2 * 2, "{met:?}");
}

#[test]
fn ways_back_go_past_every_limit() {
    let mut met = BTreeSet::new();
    for_each_point(STREAM, Way::Back, |image, point| {
        if let Ok(answer) = way_back(image, fix(point)) {
            met.extend(angles_past(answer.point));
        }
    });
    assert_eq!(met.len(), 2 * 2, "{met:?}");
}

/// Each limit is a bound of an image that passes and has corrections.
#[test]
fn grids_that_pass_reach_every_limit() {
    let mut met = BTreeSet::new();
    for image in checked_images(STREAM) {
        let Some((corrections, _)) = unbounded_grids(&image) else {
            continue;
        };
        if grid_check(&image).is_ok_and(|steps| steps[..4].iter().all(|step| *step > 0)) {
            let geometry = corrections.geometry;
            let corners = [
                geometry.node_point(0, 0),
                Point {
                    latitude: geometry.north(),
                    longitude: geometry.east(),
                },
            ];
            let reached = corners.into_iter().flat_map(past_the_limits);
            met.extend(reached.filter(|it| it.2 == 0).map(|it| (it.0, it.1)));
        }
    }
    assert_eq!(met.len(), 2 * 2, "{met:?}");
}
