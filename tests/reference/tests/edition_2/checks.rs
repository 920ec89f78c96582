//! The grid check of edition 2: question 9 over the nodes of both grids, then question 12 with
//! each grid's own spacings.

use crate::common::G_GEOMETRY;
use crate::images::{g_corrections, image_of, image_over, sloping_heights, HEIGHT_GEOMETRY};
use reference::{grid_check, Geometry};

/// Steps that question 12 refuses in either grid.
const STEEP: i32 = 1_000;

#[test]
fn question_9_asks_every_node_of_the_correction_grid() {
    for bad in 0..9 {
        for value in 0..2 {
            let image = image_of(
                |row, column| {
                    let mut node = g_corrections(row, column);
                    if 3 * row + column == bad {
                        node[value] = -10_000_001;
                    }
                    node
                },
                sloping_heights,
            );
            assert_eq!(grid_check(&image), Err(9));
        }
    }
}

#[test]
fn question_9_asks_every_node_of_the_height_grid() {
    for bad in 0..12 {
        let image = image_of(g_corrections, |row, column| {
            let is_bad = 3 * row + column == bad;
            [if is_bad {
                1_000_001
            } else {
                sloping_heights(row, column)[0]
            }]
        });
        assert_eq!(grid_check(&image), Err(9));
    }
}

#[test]
fn question_9_for_heights_precedes_question_12_for_corrections() {
    let steep_corrections = |row: i32, _: i32| [STEEP * row, 0];
    let image = image_of(steep_corrections, |_, _| [1_000_001]);
    assert_eq!(grid_check(&image), Err(9));
    let image = image_of(steep_corrections, sloping_heights);
    assert_eq!(grid_check(&image), Err(12));
}

#[test]
fn question_12_is_put_to_each_of_the_three_values() {
    for value in 0..3 {
        let image = image_of(
            |row, _| std::array::from_fn(|at| if at == value { STEEP * row } else { 0 }),
            |row, _| [if value == 2 { STEEP * row } else { 0 }],
        );
        assert_eq!(grid_check(&image), Err(12));
    }
}

/// Steps of exactly as much as the grid's own spacings allow, beside a grid with other ones.
#[test]
fn question_12_takes_each_grids_own_spacings() {
    let number = |fine_steps: i32, wide_steps: i32, heights_are_wide: bool| {
        let spaced = |geometry: Geometry, spacing| Geometry {
            latitude_spacing: spacing,
            longitude_spacing: spacing,
            ..geometry
        };
        let mut spacings = [1_000, 50_000];
        let mut steps = [fine_steps, wide_steps];
        if !heights_are_wide {
            spacings.reverse();
            steps.reverse();
        }
        let geometries = [
            spaced(G_GEOMETRY, spacings[0]),
            spaced(HEIGHT_GEOMETRY, spacings[1]),
        ];
        let image = image_over(
            geometries,
            |_, column| [0, steps[0] * column],
            |row, _| [steps[1] * row],
        );
        grid_check(&image).err()
    };
    for heights_are_wide in [false, true] {
        assert_eq!(number(10, 500, heights_are_wide), None);
        assert_eq!(number(11, 500, heights_are_wide), Some(12));
        assert_eq!(number(10, 501, heights_are_wide), Some(12));
    }
}

#[test]
fn findings_are_each_grids_largest_steps() {
    let image = image_of(
        |row, column| [2 * row - column, -3 * column],
        |row, column| [if (row, column) == (3, 0) { -3 } else { 0 }],
    );
    assert_eq!(grid_check(&image), Ok([2, 1, 0, 3, 3, 3]));
}
