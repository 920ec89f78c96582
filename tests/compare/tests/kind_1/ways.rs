//! Points on and beside the dense bounds, and ways out that go across them.

use super::{is_dense, STREAM};
use crate::made_up::{changing_steps, fix, for_each_point, number_of, place_by_bounds, settled};
use crate::nested::grids_of;
use compare::{cell_of, points_until_the_stop, Way};
use reference::{way_back, way_out, Image, Number, Point};
use std::collections::BTreeSet;

#[test]
fn points_lie_on_and_beside_every_dense_bound_and_corner() {
    let mut places = BTreeSet::new();
    for_each_point(STREAM, Way::Back, |image, point| {
        if let Some((_, dense)) = grids_of(image).filter(|_| image.in_bounds(point)) {
            places.insert(place_by_bounds(&dense.geometry, point));
        }
    });
    assert_eq!(places.len(), 16, "{places:?}");
}

#[test]
fn ways_out_end_on_and_beside_every_dense_bound() {
    let mut places = BTreeSet::new();
    for_each_point(STREAM, Way::Out, |image, point| {
        if let (Some((_, dense)), Some(points)) = (grids_of(image), settled(image, point)) {
            let last = points[points.len() - 1];
            places.insert(place_by_bounds(&dense.geometry, last));
        }
    });
    assert_eq!(places.len(), 16, "{places:?}");
}

/// At every step, and at the last step of every count, into the dense grid and out of it.
#[test]
fn ways_out_jump_across_the_border_at_every_count() {
    let met = changing_steps(STREAM, is_dense);
    // Before the last step: steps 1 to 4.
    assert_eq!(met.len(), 2 * (5 + 4), "{met:?}");
}

/// A step of 2 or 3 nd ends the way, one of 4 does not, in either angle, with both signs.
#[test]
fn last_steps_are_of_2_and_3_nd_and_others_of_4() {
    let mut met = BTreeSet::new();
    for_each_point(STREAM, Way::Out, |image, point| {
        let Some(points) = settled(image, point).filter(|_| grids_of(image).is_some()) else {
            return;
        };
        for (index, step) in points.windows(2).enumerate() {
            let is_last = index + 2 == points.len();
            let north = step[1].latitude - step[0].latitude;
            let east = step[1].longitude - step[0].longitude;
            // The other angle alone would end the way.
            if east.abs() <= 1 && (2..=4).contains(&north.abs()) {
                met.insert(("north", north, is_last));
            }
            if north.abs() <= 1 && (2..=4).contains(&east.abs()) {
                met.insert(("east", east, is_last));
            }
        }
    });
    assert_eq!(met.len(), 2 * 6, "{met:?}");
}

/// The number that the parent's cell would give at a point in the coarse bounds.
fn parent_number(image: &Image, point: Point) -> Option<Number> {
    let (coarse, _) = grids_of(image).filter(|_| image.in_bounds(point))?;
    Some(number_of(coarse.exact_values(point)))
}

/// The number of the corrections, that of the parent's, and whether the point is dense; within the
/// bounds, and on one of them.
#[test]
fn question_9_is_put_to_one_of_the_grids() {
    let (mut inside, mut on_a_bound) = (BTreeSet::new(), BTreeSet::new());
    for_each_point(STREAM, Way::Back, |image, point| {
        let number = number_of(image.corrections(point));
        let Some(((_, dense), parent)) = grids_of(image).zip(parent_number(image, point)) else {
            return;
        };
        let is_dense = dense.geometry.contains(point);
        inside.insert((number, parent, is_dense));
        let (latitude, longitude) = place_by_bounds(&dense.geometry, point);
        if is_dense && (latitude != "other" || longitude != "other") {
            on_a_bound.insert((number, parent));
        }
    });
    for (number, parent) in [(0, 0), (0, 9), (9, 0), (9, 9)] {
        assert!(inside.contains(&(number, parent, true)), "{inside:?}");
        assert!(on_a_bound.contains(&(number, parent)), "{on_a_bound:?}");
    }
    assert!(inside.contains(&(9, 9, false)), "{inside:?}");
}

/// Going out, the next point lies on the dense border and on a side of the coarse cell that was
/// used before it; and the other way round, it has left the dense grid for such a cell.
#[test]
fn ways_out_go_to_the_border_from_the_coarse_cell_beside_it() {
    let mut met = BTreeSet::new();
    for_each_point(STREAM, Way::Out, |image, point| {
        let Some((coarse, dense)) = grids_of(image) else {
            return;
        };
        let points = points_until_the_stop(image, point);
        for (index, step) in points.windows(2).enumerate() {
            let is_dense = |it: &Point| dense.geometry.contains(*it);
            let came_in = !is_dense(&step[0]) && is_dense(&step[1]);
            let (row, column) = cell_of(&coarse.geometry, step[0]);
            let corner = coarse.geometry.node_point(row.into(), column.into());
            let (p, q) = coarse.geometry.spacings();
            let beside = (0..=p).contains(&(step[1].latitude - corner.latitude))
                && (0..=q).contains(&(step[1].longitude - corner.longitude));
            // Its corrections are used unless the way ends there.
            if came_in && beside && index + 2 < points.len() {
                let (latitude, longitude) = place_by_bounds(&dense.geometry, step[1]);
                met.extend([latitude, longitude]);
            }
        }
    });
    assert!(met.contains("low") && met.contains("high"), "{met:?}");
}

/// The numbers of both ways in the dense grid and beside it.
#[test]
fn every_number_of_a_fix_occurs_in_the_dense_grid_and_beside_it() {
    let mut met = BTreeSet::new();
    for way in [Way::Out, Way::Back] {
        for_each_point(STREAM, way, |image, point| {
            let Some(is_dense) = is_dense(image, point) else {
                return;
            };
            let number = match way {
                Way::Out => number_of(way_out(image, fix(point))),
                Way::Back => number_of(way_back(image, fix(point))),
            };
            met.insert((way == Way::Out, is_dense, number));
        });
    }
    for is_dense in [false, true] {
        for number in [0, 9, 10, 11, 15] {
            let wanted = (true, is_dense, number);
            assert!(met.contains(&wanted), "{wanted:?} {met:?}");
        }
        for number in [0, 9, 15] {
            let wanted = (false, is_dense, number);
            assert!(met.contains(&wanted), "{wanted:?} {met:?}");
        }
    }
}
