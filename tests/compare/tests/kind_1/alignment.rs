//! Question 20: each way to lie wrong, by itself, over a check and over lists.

use super::STREAM;
use crate::made_up::calls;
use crate::nested::{axes, faults, trailers, Fault, AXES};
use compare::{Call, Reference};
use reference::Geometry;
use std::collections::BTreeSet;

/// The calls that get 20, with the coarse and the dense geometry.
fn refused() -> impl Iterator<Item = (Call, Geometry, Geometry)> {
    let refused = calls(STREAM).filter(|call| call.perform(&Reference, 0).number == 20);
    refused.map(|call| {
        let image = call.image().expect("an image");
        let (trailer, dense) = trailers(image).expect("an image of kind 1");
        (call, trailer.corrections, dense.geometry)
    })
}

#[test]
fn each_fault_alone_is_refused_by_the_check_and_in_lists() {
    let mut met = BTreeSet::new();
    for (call, coarse, dense) in refused() {
        let found = faults(&coarse, &dense);
        assert!(!found.is_empty());
        if let [only] = found[..] {
            met.insert((matches!(call, Call::GridCheck { .. }), only));
        }
    }
    assert_eq!(met.len(), 2 * AXES.len() * Fault::ALL.len(), "{met:?}");
}

/// 20 comes first.
#[test]
fn lists_with_other_lengths_are_refused_too() {
    let both = refused().filter(|(call, ..)| match call {
        Call::List(list) => 5 * list.fixes.len() != 3 * list.answers_length,
        _ => false,
    });
    assert!(both.count() > 5);
}

/// A bound 1 nd beside a coarse line, and a bound one cell past the coarse one.
#[test]
fn grids_lie_wrong_by_1_nd_and_by_a_whole_cell() {
    let mut met = BTreeSet::new();
    for (_, coarse, dense) in refused() {
        for (index, axis) in axes(&coarse, &dense).iter().enumerate() {
            let beside =
                |bound: i128| [1, axis.spacing - 1].contains(&bound.rem_euclid(axis.spacing));
            let events = [
                ("low beside", beside(axis.low)),
                ("high beside", beside(axis.high)),
                ("low a cell past", axis.low == -axis.spacing),
                ("high a cell past", axis.high == axis.extent + axis.spacing),
            ];
            let found = events.into_iter().filter(|it| it.1);
            met.extend(found.map(|it| (index, it.0)));
        }
    }
    assert_eq!(met.len(), 2 * 4, "{met:?}");
}
