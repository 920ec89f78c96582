//! The grid check of kind 1: question 9 over all nodes, then question 12 for the coarse values and
//! the heights and for the dense corrections, then 21; findings are the coarse grid's.

use crate::images::{
    coarse_corrections, dense_corrections, image_of, wide, with_dense_value, Geometries, GEOMETRIES,
};
use reference::{grid_check, Geometry};

#[test]
fn question_9_asks_every_dense_node() {
    for row in 0..5 {
        for column in 0..3 {
            for value in 0..2 {
                for past in [-10_000_001, 10_000_001] {
                    let image = with_dense_value(row, column, value, |_| past);
                    assert_eq!(grid_check(&image), Err(9));
                }
            }
        }
    }
}

/// A steep coarse grid is a 12, which the dense grid's 9 precedes.
#[test]
fn question_9_for_dense_nodes_precedes_question_12_for_coarse_ones() {
    let steep = |row: i32, _| [1_000 * row, 0];
    let number = |correction: i32| {
        let image = image_of(steep, |_, _| [0, correction]);
        grid_check(&image)
    };
    assert_eq!(number(10_000_001), Err(9));
    assert_eq!(number(10_000_000), Err(12));
}

/// The border agrees, or it does not: in both cases the slope is asked first.
#[test]
fn question_12_takes_the_dense_corrections_and_precedes_21() {
    for value in 0..2 {
        // Inside, 100 × A × 500 is above 250 × 500.
        let image = with_dense_value(2, 1, value, |stands| stands + 2);
        assert_eq!(grid_check(&image), Err(12));
        let image = with_dense_value(0, 0, value, |stands| stands + 3);
        assert_eq!(grid_check(&image), Err(12));
        // Constant and far from the border's values.
        let mut constant = [105, -50];
        constant[value] += 100;
        let image = image_of(coarse_corrections, |_, _| constant);
        assert_eq!(grid_check(&image), Err(21));
    }
}

/// 100 × (A × 5,000 + B × 2,500) is at most 12,500,000, over a coarse grid of zeros. Where the
/// slope passes, the border differs unless only a node inside it has another value.
#[test]
fn question_12_takes_the_dense_grids_own_spacings() {
    let number = |dense: &dyn Fn(i32, i32) -> i32| {
        let zeros = |_: i32, _: i32| [0, 0];
        let image = wide(10).image(zeros, |row, column| [dense(row, column), 0]);
        grid_check(&image).err()
    };
    let northward = |step: i32| number(&|row, _| step * row);
    assert_eq!([25, 26].map(northward), [Some(21), Some(12)]);
    let eastward = |step: i32| number(&|_, column| step * column);
    assert_eq!([50, 51].map(eastward), [Some(21), Some(12)]);
    let both = |step: i32| number(&|row, column| step * i32::from((row, column) == (2, 1)));
    assert_eq!([16, 17].map(both), [None, Some(12)]);
}

#[test]
fn question_12_for_the_coarse_grid_and_the_heights_stays() {
    let image = image_of(|row, _| [11 * row, 0], |row, _| [11 + row, 0]);
    assert_eq!(grid_check(&image), Err(12));
    let heights = Geometry {
        latitude_spacing: 400,
        ..GEOMETRIES.heights
    };
    let steep_heights = Geometries {
        heights,
        ..GEOMETRIES
    };
    let image = steep_heights.image(coarse_corrections, dense_corrections);
    assert_eq!(grid_check(&image), Err(12));
}

#[test]
fn findings_are_the_coarse_grids_though_the_dense_steps_are_larger() {
    let coarse = |row: i32, column: i32| [i32::from(row == 3), -i32::from(column == 0)];
    let image = image_of(coarse, |row, column| {
        [
            i32::from((row, column) == (2, 1)),
            -i32::from(row == 2 && column == 1),
        ]
    });
    assert_eq!(grid_check(&image), Ok([1, 0, 0, 1, 3, 4]));
    let zeros = image_of(
        |_, _| [0, 0],
        |row, column| {
            let inside = (1..4).contains(&row) && column == 1;
            [i32::from(inside), -i32::from(inside)]
        },
    );
    assert_eq!(grid_check(&zeros), Ok([0, 0, 0, 0, 3, 4]));
}
