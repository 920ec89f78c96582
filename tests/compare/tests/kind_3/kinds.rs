//! The same bytes as other kinds, in the check, in lists and in both conversions.

use super::STREAM;
use crate::made_up::{calls, with_kind};
use compare::Call;
use reference::{open_image, Arrangement, TwoGridTrailer};
use std::collections::BTreeSet;

/// What a call takes images of kind 3 for, or those of kind 0.
fn right_kind(call: &Call) -> u32 {
    match call {
        Call::Arrange(given) => given.arrangement.other().kind(),
        _ => Arrangement::Planes.kind(),
    }
}

#[test]
fn kinds_are_0_to_4_and_more_beside_the_same_bytes() {
    let mut met = BTreeSet::new();
    for call in calls(STREAM) {
        let image = call.image().expect("an image").to_vec();
        let Some(trailer) = TwoGridTrailer::read(&image).filter(|it| it.edition == 2) else {
            continue;
        };
        let right = right_kind(&call);
        if open_image(&with_kind(image, right)).is_ok() {
            let is_converted = matches!(call, Call::Arrange(_));
            let lowest_byte_alone = trailer.kind != right && trailer.kind % 256 == right;
            met.insert((is_converted, right, trailer.kind.min(5), lowest_byte_alone));
        }
    }
    for (is_converted, right) in [(false, 3), (true, 0), (true, 3)] {
        for kind in 0..=5 {
            let with = (is_converted, right, kind, false);
            assert!(met.contains(&with), "{with:?} {met:?}");
        }
        let with = (is_converted, right, 5, true);
        assert!(met.contains(&with), "{with:?} {met:?}");
    }
}
