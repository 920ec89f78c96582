//! How dense grids lie in coarse ones, and what their nodes hold.

use super::{for_each_nested, is_dense, STREAM};
use crate::made_up::{
    for_each_point, furthest_apart, limits_of_checked, limits_of_nodes, rounding_case,
};
use crate::nested::grids_of;
use compare::cases::values::NEAR;
use compare::Way;
use reference::Geometry;
use std::collections::BTreeSet;

/// What can be said of a dense grid, and whether it is so.
type Event = (&'static str, bool);

/// The parts into which the dense grid divides the coarse spacings.
fn ratios(coarse: &Geometry, dense: &Geometry) -> [u32; 2] {
    [
        coarse.latitude_spacing / dense.latitude_spacing,
        coarse.longitude_spacing / dense.longitude_spacing,
    ]
}

/// How a dense grid's spacings are to the coarse ones.
fn spacings(coarse: &Geometry, dense: &Geometry) -> [Event; 9] {
    let [in_latitude, in_longitude] = ratios(coarse, dense);
    let both = |wanted: fn(u32) -> bool| wanted(in_latitude) && wanted(in_longitude);
    let is_1 = dense.latitude_spacing == 1;
    [
        ("the coarse spacings", both(|it| it == 1)),
        ("halves", both(|it| it == 2)),
        ("odd parts", both(|it| it > 1 && it % 2 == 1)),
        ("even parts above 2", both(|it| it > 2 && it % 2 == 0)),
        ("large parts", in_latitude > 1_000 || in_longitude > 1_000),
        ("other parts on each axis", in_latitude != in_longitude),
        ("spacing 1 from 1", both(|it| it == 1) && is_1),
        ("spacing 1 from more", in_latitude > 1 && is_1),
        ("wide", dense.longitude_spacing > 10_000_000),
    ]
}

/// Which of the coarse cells it covers.
fn coverage(coarse: &Geometry, dense: &Geometry) -> [Event; 8] {
    let [in_latitude, in_longitude] = ratios(coarse, dense);
    let covered = [
        (dense.rows - 1) / in_latitude,
        (dense.columns - 1) / in_longitude,
    ];
    let is_whole = covered == [coarse.rows - 1, coarse.columns - 1];
    let is_same = [in_latitude, in_longitude] == [1, 1];
    let [south, west] = [dense.south == coarse.south, dense.west == coarse.west];
    let north = dense.north() == coarse.north();
    let east = dense.east() == coarse.east();
    [
        ("the whole coarse grid", is_whole && in_latitude > 1),
        ("the coarse grid itself", is_whole && is_same),
        ("one coarse cell", covered == [1, 1] && !is_whole),
        ("to the south alone", south && !(north || west || east)),
        ("to the north alone", north && !(south || west || east)),
        ("to the west alone", west && !(north || south || east)),
        ("to the east alone", east && !(north || south || west)),
        ("between all bounds", !(south || north || west || east)),
    ]
}

#[test]
fn dense_grids_lie_in_coarse_ones_in_every_relation() {
    let mut met = BTreeSet::new();
    for_each_nested(|coarse, dense| {
        let of_spacings = spacings(&coarse.geometry, &dense.geometry).into_iter();
        let events = of_spacings.chain(coverage(&coarse.geometry, &dense.geometry));
        met.extend(events.filter(|it| it.1).map(|it| it.0));
    });
    assert_eq!(met.len(), 17, "{met:?}");
}

#[test]
fn checked_dense_grids_reach_the_limits_of_the_geometry_and_pass_with_steps() {
    let met = limits_of_checked(STREAM, |image| {
        let grids = grids_of(image);
        grids.map_or(*image.height_geometry(), |(_, dense)| dense.geometry)
    });
    assert_eq!(met.len(), 10, "{met:?}");
}

#[test]
fn dense_nodes_stand_at_and_past_each_limit() {
    let mut met = BTreeSet::new();
    for_each_nested(|_, dense| {
        if dense.geometry.nodes() < 200 {
            met.extend(limits_of_nodes(dense));
        }
    });
    assert_eq!(met.len(), 2 * 4, "{met:?}");
}

#[test]
fn every_case_of_the_rounding_occurs_for_dense_corrections() {
    let mut cases = BTreeSet::new();
    for_each_point(STREAM, Way::Back, |image, point| {
        if is_dense(image, point) == Some(true) {
            let corrections = image.exact_corrections(point).into_iter().flatten();
            for (value, exact) in corrections.enumerate() {
                cases.insert((value, rounding_case(exact), exact.parts().1 % 2));
            }
        }
    });
    assert_eq!(cases.len(), 2 * (6 + 4), "{cases:?}");
}

/// Both sides of the limits within which the library weighs with one division, by dense cells.
#[test]
fn dense_corners_lie_near_each_other_and_far_apart() {
    let mut met = BTreeSet::new();
    for_each_point(STREAM, Way::Back, |image, point| {
        let Some((_, dense)) = grids_of(image).filter(|it| it.1.geometry.contains(point)) else {
            return;
        };
        let (row, column) = dense.geometry.places(point);
        let corners = dense.corners(row.cell, column.cell).concat();
        let (p, q) = dense.geometry.spacings();
        for value in 0..2 {
            let beyond = furthest_apart(corners.iter().map(|it| it[value])) - NEAR;
            met.insert((value, beyond.clamp(-1, 2), p * q <= 1 << 48));
        }
    });
    assert_eq!(met.len(), 2 * 4 * 2, "{met:?}");
}
