//! Points in the bounds of both grids, on them, beside them and far away, and ways out that go
//! across them.

use super::STREAM;
use crate::made_up::{changing_steps, fix, for_each_point, number_of, place_by_bounds, settled};
use compare::{nearest_point, Way};
use reference::{way_back, way_out, Geometry, Image, Number, Point, DEGREE};
use std::collections::BTreeSet;

/// Does something for every point of the lists of one way over images of kind 2.
fn for_each_unbounded(way: Way, mut action: impl FnMut(&Image, Point)) {
    for_each_point(STREAM, way, |image, point| {
        if image.is_unbounded() {
            action(image, point);
        }
    });
}

/// Both geometries of an image.
fn geometries<'a>(image: &'a Image) -> [(&'static str, &'a Geometry); 2] {
    [
        ("corrections", image.correction_geometry()),
        ("heights", image.height_geometry()),
    ]
}

#[test]
fn points_lie_on_and_beside_every_bound_and_corner_of_both_grids() {
    for way in [Way::Out, Way::Back] {
        let mut places = BTreeSet::new();
        for_each_unbounded(way, |image, point| {
            let of = |(grid, geometry)| (grid, place_by_bounds(geometry, point));
            places.extend(geometries(image).map(of));
        });
        assert_eq!(places.len(), 2 * 16, "{places:?}");
    }
}

#[test]
fn ways_out_end_on_and_beside_every_bound_and_corner_of_both_grids() {
    let mut places = BTreeSet::new();
    for_each_unbounded(Way::Out, |image, point| {
        if let Some(points) = settled(image, point) {
            let last = points[points.len() - 1];
            let of = |(grid, geometry)| (grid, place_by_bounds(geometry, last));
            places.extend(geometries(image).map(of));
        }
    });
    assert_eq!(places.len(), 2 * 16, "{places:?}");
}

/// Out of the bounds of the corrections at the last step of each count, 1 to 5. A way that goes out
/// of them before, at step 2 to 4, is at its fix again with the next step, which ends it where the
/// fix lies 1 nd inside; else it goes round until 11.
#[test]
fn ways_out_go_across_the_bounds_at_every_count() {
    let met = changing_steps(STREAM, |image, point| {
        image.is_unbounded().then(|| image.in_bounds(point))
    });
    assert_eq!(met.len(), 11, "{met:?}");
}

/// The numbers that a fix can get by the bounds that it lies in, in limits: whether it lies in
/// those of the corrections, and of the heights.
fn numbers_of(way: Way) -> BTreeSet<(bool, bool, Number)> {
    let mut met = BTreeSet::new();
    for_each_unbounded(way, |image, point| {
        let answered = match way {
            Way::Out => way_out(image, fix(point)),
            Way::Back => way_back(image, fix(point)),
        };
        let number = match answered {
            Ok(answer) if answer.height.is_none() => 100,
            answered => number_of(answered),
        };
        if number != 7 {
            let [in_bounds, on_heights] = geometries(image).map(|it| it.1.contains(point));
            met.insert((in_bounds, on_heights, number));
        }
    });
    met
}

/// These numbers and no others: 8, 10 and 15 are not put.
#[test]
fn every_number_of_a_fix_occurs_in_the_bounds_of_either_grid_and_outside_and_no_other() {
    let of = |in_bounds, on_heights, numbers: &[Number]| {
        let with_bounds = |number: &Number| (in_bounds, on_heights, *number);
        numbers.iter().map(with_bounds).collect::<Vec<_>>()
    };
    let out = [
        of(true, true, &[0, 9, 11, 100]),
        of(true, false, &[0, 9, 11, 100]),
        of(false, true, &[0, 9]),
        of(false, false, &[100]),
    ];
    assert_eq!(numbers_of(Way::Out), out.concat().into_iter().collect());
    let back = [
        of(true, true, &[0, 9]),
        of(true, false, &[9, 100]),
        of(false, true, &[0, 9]),
        of(false, false, &[100]),
    ];
    assert_eq!(numbers_of(Way::Back), back.concat().into_iter().collect());
}

/// Outside the nearest cell is unfit, of either grid, and is not asked.
#[test]
fn nearest_cells_are_unfit_beside_points_that_are_answered() {
    let mut met = BTreeSet::new();
    for_each_unbounded(Way::Back, |image, point| {
        if way_back(image, fix(point)).is_err() {
            return;
        }
        let [corrections, heights] = geometries(image).map(|it| nearest_point(it.1, point));
        met.insert(("corrections", number_of(image.corrections(corrections))));
        met.insert(("heights", number_of(image.height(heights))));
    });
    assert_eq!(met.len(), 2 * 2, "{met:?}");
}

/// More than a degree from the bounds in latitude, in longitude and in both, of both grids.
#[test]
fn points_lie_far_away() {
    let mut met = BTreeSet::new();
    for_each_unbounded(Way::Out, |image, point| {
        let far = geometries(image).map(|(_, geometry)| {
            let nearest = nearest_point(geometry, point);
            [
                (point.latitude - nearest.latitude).abs() > DEGREE,
                (point.longitude - nearest.longitude).abs() > DEGREE,
            ]
        });
        if far[0] == far[1] && way_out(image, fix(point)).is_ok() {
            met.insert(far[0]);
        }
    });
    assert_eq!(met.len(), 4, "{met:?}");
}
