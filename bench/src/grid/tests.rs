//! That the made-up grids are what the measurements need.

use super::{
    narrow_heights, national, own_heights, wide_heights, with_count, zeros, Edition, Geometry, Grid,
};
use crate::{fixes, plain, Way};

/// The i128 implementation's answers both ways, which each list call gives.
fn answers(grid: &Grid, fixes: &[i64]) -> Vec<i64> {
    let mut answers = vec![-1; 2 * fixes.len() / 3 * 5];
    let (out, back) = answers.split_at_mut(fixes.len() / 3 * 5);
    for (way, answers) in [(Way::Out, out), (Way::Back, back)] {
        assert_eq!(plain::list(way, &grid.image, fixes, answers), 0);
    }
    answers
}

/// Whether a geometry's bounds hold another's.
fn covers(outer: &Geometry, inner: &Geometry) -> bool {
    let north = |it: &Geometry| it.south + it.height();
    let east = |it: &Geometry| it.west + it.width();
    outer.south <= inner.south
        && outer.west <= inner.west
        && north(inner) <= north(outer)
        && east(inner) <= east(outer)
}

#[test]
fn national_grids_pass_and_answer() {
    for edition in Edition::ALL {
        for (rows, columns) in [(3, 3), (64, 64), (481, 301)] {
            let grid = national(edition, rows, columns);
            assert_eq!(plain::grid_check(&grid.image, &mut [0; 6]), 0);
            assert!(covers(&grid.heights, &grid.corrections));
            let fixes = fixes::spread_over(&grid, 100);
            let answered = |answer: &[i64]| answer[4] == 0;
            assert!(answers(&grid, &fixes).chunks_exact(5).all(answered));
        }
    }
}

#[test]
fn wide_heights_pass_and_are_wide() {
    let grid = wide_heights(64, 64);
    assert_eq!(plain::grid_check(&grid.image, &mut [0; 6]), 0);
    assert!(covers(&grid.heights, &grid.corrections));
    let area = |it: &Geometry| u64::from(it.latitude_spacing) * u64::from(it.longitude_spacing);
    assert!(area(&grid.heights) > 1 << 48 && area(&grid.corrections) <= 1 << 48);
}

#[test]
fn heights_stay_within_question_3() {
    for (rows, columns) in [(2, 2), (1_024, 1_024), (4_096, 4_096)] {
        let corrections = Geometry {
            rows,
            columns,
            ..zeros(Edition::First, 2, 2).corrections
        };
        let heights = own_heights(Edition::Second, &corrections).expect("heights");
        assert!(covers(&heights, &corrections));
        assert!(heights.rows <= 4_096 && heights.columns <= 4_096);
        let largest = rows == 4_096;
        assert_eq!(
            heights.latitude_spacing == corrections.latitude_spacing,
            largest
        );
        assert_eq!(
            heights.longitude_spacing == corrections.longitude_spacing,
            largest
        );
    }
}

#[test]
fn counts_are_as_named() {
    for edition in Edition::ALL {
        for count in 1..=5 {
            let grid = with_count(edition, count);
            assert_eq!(plain::grid_check(&grid.image, &mut [0; 6]), 0);
            let fixes = fixes::middle(&grid.corrections, 1);
            let answers = answers(&grid, &fixes);
            assert_eq!([answers[3], answers[4]], [i64::from(count), 0]);
        }
    }
}

#[test]
fn narrow_heights_are_left_both_ways() {
    let grid = narrow_heights();
    assert!(covers(&grid.corrections, &grid.heights));
    assert_eq!(plain::grid_check(&grid.image, &mut [0; 6]), 0);
    let answers = answers(&grid, &fixes::anywhere(&grid.heights, 1_000));
    let (out, back) = answers.split_at(5_000);
    for answers in [out, back] {
        let count = |number: i64| answers.chunks_exact(5).filter(|it| it[4] == number).count();
        assert!(
            count(0) > 100 && count(15) > 100,
            "{} {}",
            count(0),
            count(15)
        );
    }
}

/// What was put into the image is read from it again.
#[test]
fn values_are_where_they_were_put() {
    let grid = national(Edition::Second, 3, 4);
    let nodes = &grid.image[..];
    let number = |at: usize| i32::from_le_bytes(nodes[at..at + 4].try_into().expect("4 bytes"));
    assert_eq!(grid.correction(2, 3), [number(8 * 11), number(8 * 11 + 4)]);
    let heights = 8 * 12;
    assert_eq!(
        grid.height(1, 0),
        number(heights + 4 * grid.heights.columns as usize)
    );
    let back = u32::from_le_bytes(nodes[nodes.len() - 16..][..4].try_into().expect("4 bytes"));
    assert_eq!(back as usize, nodes.len());
}

/// The middle of the corrections, at most so far divided as question 3 allows.
#[test]
fn dense_grids_lie_over_the_middle() {
    for (rows, columns, dense_rows, dense_columns) in [
        (3, 3, 6, 6),
        (64, 64, 156, 156),
        (481, 301, 1_201, 751),
        (4_096, 2, 4_096, 6),
    ] {
        let grid = zeros(Edition::SecondDense, rows, columns);
        let dense = grid.dense.expect("a dense grid");
        assert_eq!((dense.rows, dense.columns), (dense_rows, dense_columns));
        assert!(covers(&grid.corrections, &dense));
        assert_eq!(plain::grid_check(&grid.image, &mut [0; 6]), 0);
    }
}

/// Every other fix, and for these the corrections differ from those without the dense grid.
#[test]
fn fixes_lie_in_the_dense_grid_and_beside_it() {
    let grid = national(Edition::SecondDense, 64, 64);
    let dense = grid.dense.expect("a dense grid");
    let fixes = fixes::spread_over(&grid, 1_000);
    let inside = |fix: &&[i64]| {
        (dense.south..=dense.south + dense.height()).contains(&fix[0])
            && (dense.west..=dense.west + dense.width()).contains(&fix[1])
    };
    let count = fixes.chunks_exact(3).filter(inside).count();
    assert!((500..800).contains(&count), "{count}");
    let without = Grid {
        image: grid.image_of_kind_0(),
        ..national(Edition::Second, 64, 64)
    };
    let (with, without) = (answers(&grid, &fixes), answers(&without, &fixes));
    let differ = with
        .chunks(5)
        .zip(without.chunks(5))
        .filter(|(a, b)| a != b);
    assert!(differ.count() > 900);
}

#[test]
fn the_image_without_its_dense_grid_is_that_of_edition_2() {
    let dense = national(Edition::SecondDense, 21, 21);
    let without = national(Edition::Second, 21, 21);
    assert_eq!(dense.image_of_kind_0(), without.image);
    assert_eq!(dense.correction(20, 3), without.correction(20, 3));
    assert_eq!(dense.height(5, 7), without.height(5, 7));
    assert_eq!(dense.nodes(), without.nodes() + 51 * 51);
}

#[test]
fn the_image_in_planes_is_that_of_edition_2_arranged() {
    let (planes, nodes) = (
        national(Edition::SecondPlanes, 21, 33),
        national(Edition::Second, 21, 33),
    );
    assert_eq!(planes.image_of_kind_0(), nodes.image);
    assert_eq!(planes.correction(20, 3), nodes.correction(20, 3));
    assert_eq!(planes.height(5, 7), nodes.height(5, 7));
    assert_eq!(planes.correction_places(1, 2), [4 * 35, 4 * (21 * 33 + 35)]);
    let fixes = fixes::spread_over(&planes, 1_000);
    assert_eq!(answers(&planes, &fixes), answers(&nodes, &fixes));
}

/// Every other fix, of which some are on the heights and others not, and with kind 0 all are refused.
#[test]
fn fixes_lie_past_the_edge() {
    let grid = national(Edition::SecondUnbounded, 64, 64);
    let fixes = fixes::past_the_edge(&grid, 1_000);
    let of_kind_0 = Grid {
        image: grid.image_of_kind_0(),
        ..national(Edition::Second, 64, 64)
    };
    let (found, refused) = (answers(&grid, &fixes), answers(&of_kind_0, &fixes));
    for (index, (answer, other)) in found.chunks(5).zip(refused.chunks(5)).enumerate() {
        let is_past = index % 2 == 0;
        assert_eq!(other[4], if is_past { 8 } else { 0 });
        assert!([0, 100].contains(&answer[4]), "{answer:?}");
        assert!(is_past || answer == other);
    }
    let count = |number: i64| found.chunks(5).filter(|it| it[4] == number).count();
    assert_eq!(count(0) + count(100), 2_000);
    assert!(count(100) > 700, "{}", count(100));
}

/// A correction on the border is zero, one in the middle as in other editions.
#[test]
fn corrections_of_kind_2_go_down_to_the_border() {
    let (grid, without) = (
        national(Edition::SecondUnbounded, 64, 80),
        national(Edition::Second, 64, 80),
    );
    assert_eq!(grid.correction(63, 40), [0, 0]);
    assert_eq!(grid.correction(1, 40), [40_000, -40_000]);
    assert_eq!(grid.correction(32, 1), [60_000, -60_000]);
    assert_eq!(grid.correction(32, 40), without.correction(32, 40));
    assert_eq!(grid.image_of_kind_0().len(), without.image.len());
}
