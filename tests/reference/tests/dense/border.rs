//! Question 21: every node on the dense border, both corrections, at most 1 nd from the parent's
//! exact value there.

use crate::images::{image_of, wide, with_dense_value, Geometries, GEOMETRIES};
use reference::{grid_check, Geometry, Number};

/// The rows and columns of the small image's dense nodes: those on the border, or those inside.
fn nodes(on_the_border: bool) -> impl Iterator<Item = (i32, i32)> {
    let all = (0..5).flat_map(|row| (0..3).map(move |column| (row, column)));
    let is_inside = |row, column| (1..4).contains(&row) && column == 1;
    all.filter(move |(row, column)| is_inside(*row, *column) != on_the_border)
}

/// The number of a wide image, whose slope test lets steps of some nd pass, with a difference from
/// the parent's exact value in one dense node.
fn number_with(row: i32, column: i32, difference: [i32; 2]) -> Option<Number> {
    let image = wide(100).image(
        |row, _| [10 * row, -20],
        |at_row, at_column| {
            let [latitude, longitude] = if (at_row, at_column) == (row, column) {
                difference
            } else {
                [0, 0]
            };
            // A quarter of the coarse step in each row: 10, 12.5, 15, 17.5, 20, made whole.
            [10 + 5 * at_row / 2 + latitude, -20 + longitude]
        },
    );
    grid_check(&image).err()
}

/// In rows 0, 2 and 4 the exact value is whole.
#[test]
fn a_border_node_1_nd_off_passes_and_one_2_nd_off_does_not() {
    for (row, column) in nodes(true).filter(|(row, _)| row % 2 == 0) {
        for sign in [-1, 1] {
            for [latitude, longitude] in [[1, 0], [0, 1], [1, 1]] {
                let off = |by: i32| [sign * by * latitude, sign * by * longitude];
                assert_eq!(number_with(row, column, off(1)), None);
                assert_eq!(number_with(row, column, off(2)), Some(21));
            }
        }
    }
}

#[test]
fn a_node_inside_the_border_is_not_asked() {
    for (row, column) in nodes(false) {
        for sign in [-1, 1] {
            assert_eq!(number_with(row, column, [20 * sign, 0]), None);
            assert_eq!(number_with(row, column, [0, -20 * sign]), None);
        }
    }
}

/// In rows 1 and 3 the exact value is 12.5 and 17.5, rounded 13 and 18; the nodes stand 0.5 below.
#[test]
fn a_border_node_is_set_beside_the_exact_value_and_not_the_rounded_one() {
    for (row, column) in nodes(true).filter(|(row, _)| row % 2 == 1) {
        let number = |difference| number_with(row, column, [difference, 0]);
        assert_eq!([-1, 0, 1, 2].map(number), [Some(21), None, None, Some(21)]);
    }
}

/// The number with the corrections 0 and a step in the first coarse row, of which the dense border
/// has fractions, and a difference in the dense node east of the corner.
fn number_by_fraction(step: i32, correction: i32) -> Option<Number> {
    let dense = Geometry {
        longitude_spacing: 10_000,
        columns: 11,
        ..wide(100).dense
    };
    let geometries = Geometries { dense, ..wide(100) };
    let image = geometries.image(
        |row, column| [0, if (row, column) == (1, 2) { step } else { 0 }],
        |row, column| match (row, column) {
            (0, 1) => [0, correction],
            (0, _) => [0, (step * column).div_euclid(10)],
            (_, 10) => [0, (step * (4 - row)).div_euclid(4)],
            _ => [0, 0],
        },
    );
    grid_check(&image).err()
}

/// A tenth of the step is the exact value: for 11 it is 1.1, for 9 it is 0.9.
#[test]
fn a_difference_of_just_more_than_1_nd_is_a_21() {
    let number = |step: i32, correction: i32| {
        let number = number_by_fraction(step, correction);
        let mirrored = number_by_fraction(-step, -correction);
        assert_eq!(number, mirrored, "{step} {correction}");
        number
    };
    assert_eq!(number(10, 0), None);
    assert_eq!(number(10, 2), None);
    assert_eq!(number(10, -1), Some(21));
    assert_eq!(number(10, 3), Some(21));
    assert_eq!(number(11, 0), Some(21));
    assert_eq!(number(11, 1), None);
    assert_eq!(number(11, 2), None);
    assert_eq!(number(11, 3), Some(21));
    assert_eq!(number(9, 0), None);
    assert_eq!(number(9, 1), None);
    assert_eq!(number(9, 2), Some(21));
    assert_eq!(number(9, -1), Some(21));
}

/// The parent of a dense node on the coarse grid's own northern or eastern bound is its last cell.
#[test]
fn a_border_on_the_coarse_bounds_is_asked_too() {
    let whole = Geometries {
        dense: GEOMETRIES.coarse,
        ..GEOMETRIES
    };
    let number = |row: i32, column: i32, by: i32| {
        let coarse = |row: i32, column: i32| [2 * row, 2 * column];
        let image = whole.image(coarse, |at_row, at_column| {
            let mut node = coarse(at_row, at_column);
            if (at_row, at_column) == (row, column) {
                node[1] += by;
            }
            node
        });
        grid_check(&image).err()
    };
    for (row, column) in [(0, 0), (0, 3), (3, 0), (3, 3), (3, 1), (2, 3)] {
        assert_eq!([-1, 1].map(|by| number(row, column, by)), [None; 2]);
        assert_eq!([-2, 2].map(|by| number(row, column, by)), [Some(21); 2]);
    }
    assert_eq!(number(1, 2, 2), None);
}

#[test]
fn the_small_images_longitudes_stand_1_nd_off() {
    let number = |row, column, by: i32| {
        let image = with_dense_value(row, column, 1, |value| value + by);
        grid_check(&image).err()
    };
    for (row, column) in nodes(true) {
        assert_eq!(number(row, column, 1), None);
        assert_eq!(number(row, column, -1), Some(21));
    }
}

#[test]
fn the_heights_have_no_part_in_it() {
    let image = image_of(|_, _| [0, 0], |_, _| [0, 0]);
    assert_eq!(grid_check(&image), Ok([0, 0, 0, 0, 3, 4]));
}
