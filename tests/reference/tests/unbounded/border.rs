//! The grid check of kind 2: question 9 over all nodes, then 22, then question 12.

use crate::common::G_GEOMETRY;
use crate::images::{image_of, image_of_kind, sloping_heights, tent, CORRECTIONS, HEIGHTS};
use reference::{grid_check, Geometry, Number};

/// The small image with one correction put into one node.
fn with_correction(row: i32, column: i32, value: usize, stands_there: i32) -> Vec<u8> {
    image_of(
        |at_row, at_column| {
            let mut node = tent(at_row, at_column);
            if (at_row, at_column) == (row, column) {
                node[value] = stands_there;
            }
            node
        },
        sloping_heights,
    )
}

/// Every border node, each of its corrections, and 1 nd of either sign. Of the others none: the
/// slopes pass with a step of 1 less.
#[test]
fn every_border_node_is_asked_for_both_corrections_and_no_other() {
    for row in 0..5 {
        for column in 0..5 {
            let on_the_border = [0, 4].contains(&row) || [0, 4].contains(&column);
            let number = |value: usize, change| {
                let stands = tent(row, column)[value];
                grid_check(&with_correction(row, column, value, stands + change)).err()
            };
            for value in 0..2 {
                // Towards zero, so that no step is larger than before.
                let inward = if value == 0 { -1 } else { 1 };
                if on_the_border {
                    assert_eq!([-1, 1].map(|it| number(value, it)), [Some(22); 2]);
                } else {
                    assert_ne!(number(value, inward), Some(22));
                }
            }
        }
    }
}

#[test]
fn inner_nodes_may_be_zero_or_not() {
    let flat = |inner: i32| {
        let correction = move |row, column| tent(row, column).map(|it| it.signum() * inner);
        grid_check(&image_of(correction, sloping_heights))
    };
    assert_eq!(flat(0), Ok([0, 0, 0, 0, 3, 4]));
    assert_eq!(flat(5), Ok([5, 5, 5, 5, 3, 4]));
}

/// Two rows and columns have border nodes alone.
#[test]
fn the_smallest_grid_must_be_zero() {
    let smallest = Geometry {
        rows: 2,
        columns: 2,
        ..G_GEOMETRY
    };
    let number = |kind, correction: i32| {
        let node = |row: i32, column: i32| [correction * row * column, 0];
        grid_check(&image_of_kind(kind, [smallest, HEIGHTS], node, |_, _| [0])).err()
    };
    assert_eq!(number(2, 0), None);
    assert_eq!(number(2, 1), Some(22));
    assert_eq!(number(0, 1), None);
}

/// The number of an image whose corrections are steep or unfit inside, or not 0 on the border, and
/// whose heights are.
fn number_of(inside: i32, on_the_border: i32, heights: i32) -> Option<Number> {
    let correction = |row: i32, column: i32| match (row, column) {
        (2, 2) => [0, inside],
        (4, 4) => [on_the_border, 0],
        _ => [0, 0],
    };
    let height = |row: i32, column: i32| [heights * i32::from((row, column) == (3, 2))];
    grid_check(&image_of(correction, height)).err()
}

#[test]
fn question_9_of_either_grid_precedes_22_and_that_question_12() {
    let (steep, unfit, unfit_height) = (5_000, 10_000_001, 1_000_001);
    assert_eq!(number_of(0, 0, 0), None);
    assert_eq!(number_of(unfit, 1, 0), Some(9));
    assert_eq!(number_of(0, 1, unfit_height), Some(9));
    assert_eq!(number_of(0, unfit, 0), Some(9));
    assert_eq!(number_of(steep, 1, 0), Some(22));
    assert_eq!(number_of(0, steep, 0), Some(22));
    assert_eq!(number_of(0, -1, steep), Some(22));
    assert_eq!(number_of(steep, 0, 0), Some(12));
    assert_eq!(number_of(0, 0, steep), Some(12));
}

/// "22, only asked of kind 2"; nor is the height grid's border asked.
#[test]
fn other_kinds_and_heights_are_not_asked() {
    let image = |kind, correction: i32, height: i32| {
        let correction = move |_, _| [correction, 0];
        image_of_kind(kind, [CORRECTIONS, HEIGHTS], correction, move |_, _| {
            [height]
        })
    };
    assert_eq!(grid_check(&image(0, 7, 9)).err(), None);
    assert_eq!(grid_check(&image(2, 7, 9)).err(), Some(22));
    assert_eq!(grid_check(&image(2, 0, 9)).err(), None);
}
