//! The images that are converted, and what is compared over them.

use super::arrangings;
use crate::made_up::{limits_of_nodes, number_of};
use compare::Arranging;
use reference::{
    arrange, grid_check, list_back, list_out, open_image, Arrangement, Geometry, Image, Number,
};
use std::collections::BTreeSet;

/// The conversions that give an image, and that image.
fn conversions() -> impl Iterator<Item = (Arranging, Vec<u8>)> {
    arrangings().filter_map(|given| {
        let converted = arrange(given.arrangement, &given.image, given.buffer_length);
        converted.ok().map(|image| (given, image))
    })
}

#[test]
fn every_number_of_the_check_and_of_fixes_occurs_over_converted_images() {
    let mut met = BTreeSet::new();
    for (given, converted) in conversions() {
        let mut add = |name, number: Number| met.insert((given.arrangement.kind(), name, number));
        add("check", number_of(grid_check(&converted)));
        let answers = given.fixes.len() / 3 * 5;
        for (name, list) in [("out", list_out as fn(_, _, _) -> _), ("back", list_back)] {
            let answered = list(&converted, &given.fixes, answers).expect("answers");
            for answer in answered.chunks(5) {
                add(name, answer[4]);
            }
        }
    }
    let wanted: [(_, &[Number]); 3] = [
        ("check", &[0, 9, 12]),
        ("out", &[0, 7, 8, 9, 10, 11, 15]),
        ("back", &[0, 7, 8, 9, 15]),
    ];
    let numbers = wanted.map(|(_, numbers)| numbers.len());
    for kind in [0, 3] {
        for (name, numbers) in wanted {
            for number in numbers {
                let with = (kind, name, *number);
                assert!(met.contains(&with), "{with:?} {met:?}");
            }
        }
    }
    assert_eq!(met.len(), 2 * numbers.iter().sum::<usize>(), "{met:?}");
}

/// Values at and past their limits are converted as others are.
#[test]
fn corrections_at_and_past_each_limit_are_converted() {
    let mut met = BTreeSet::new();
    for (given, converted) in conversions().filter(|(given, _)| given.image.len() < 2_000) {
        if let Ok(Image::TwoGrids { corrections, .. }) = open_image(&converted) {
            let limits = limits_of_nodes(&corrections).into_iter();
            met.extend(limits.map(|it| (given.arrangement.kind(), it)));
        }
    }
    assert_eq!(met.len(), 2 * 2 * 4, "{met:?}");
}

fn shape(corrections: &Geometry, heights: &Geometry) -> (i8, i8) {
    let by_lines = corrections.rows.cmp(&corrections.columns) as i8;
    (by_lines, heights.nodes().cmp(&corrections.nodes()) as i8)
}

/// More rows than columns, as many and fewer; more heights than corrections, as many and fewer. And
/// images whose two corrections, and whose first and last nodes, differ.
#[test]
fn grids_of_every_shape_are_converted() {
    for arrangement in [Arrangement::Nodes, Arrangement::Planes] {
        let (mut shapes, mut differing) = (BTreeSet::new(), 0);
        for (_, converted) in conversions().filter(|(it, _)| it.arrangement == arrangement) {
            let Ok(Image::TwoGrids {
                corrections,
                heights,
                ..
            }) = open_image(&converted)
            else {
                panic!("two grids");
            };
            shapes.insert(shape(&corrections.geometry, &heights.geometry));
            let nodes = corrections.all_nodes();
            let [first, last] = [nodes[0], nodes[nodes.len() - 1]];
            differing += i32::from(first != last && first[0] != first[1]);
        }
        assert_eq!(shapes.len(), 3 * 3, "{shapes:?}");
        assert!(differing > 500, "{differing}");
    }
}
