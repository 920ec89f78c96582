//! That the formulas are those of the papers: the answers are near those of the i128
//! implementation.

use super::list;
use crate::grid::{self, Edition, Grid};
use crate::{fixes, plain, Way};

#[test]
fn answers_are_near_with_a_dense_grid() {
    near(Edition::SecondDense);
}

#[test]
fn answers_are_near_in_edition_1() {
    near(Edition::First);
}

#[test]
fn answers_are_near_in_edition_2() {
    near(Edition::Second);
}

#[test]
fn answers_are_near_in_planes() {
    near(Edition::SecondPlanes);
}

#[test]
fn answers_are_near_past_the_edge() {
    let grid = grid::national(Edition::SecondUnbounded, 64, 64);
    near_over(&grid, &fixes::spread_over(&grid, 1_000));
    near_over(&grid, &fixes::past_the_edge(&grid, 1_000));
}

fn near(edition: Edition) {
    let grid = grid::national(edition, 21, 21);
    near_over(&grid, &fixes::spread_over(&grid, 1_000));
}

/// Compares the answers to a thousand fixes.
fn near_over(grid: &Grid, fixes: &[i64]) {
    for way in [Way::Out, Way::Back] {
        let [mut found, mut expected] = [vec![0; 5_000], vec![0; 5_000]];
        assert_eq!(list(way, &grid.image, fixes, &mut found), 0);
        assert_eq!(plain::list(way, &grid.image, fixes, &mut expected), 0);
        for (answer, exact) in found.chunks_exact(5).zip(expected.chunks_exact(5)) {
            let near = answer.iter().zip(exact).all(|(a, b)| (a - b).abs() <= 1);
            assert!(near, "{way:?}: {answer:?}, not {exact:?}");
        }
    }
}
