//! Figures of kind 3, worked out by hand: corrections of 100 + 4 × row − column and −50 + 3 × column
//! over G's nodes, and heights from (500, 0) to (2000, 2000).

use super::{answer, refused, GEOMETRY, SOUTH};
use crate::grid::{Geometry, Grid};
use crate::plain::grid_check;
use crate::Way::{Back, Out};

const HEIGHTS: Geometry = Geometry {
    south: SOUTH + 500,
    latitude_spacing: 500,
    rows: 4,
    ..GEOMETRY
};

fn sloping(row: u32, column: u32) -> [i32; 2] {
    let (row, column) = (row as i32, column as i32);
    [100 + 4 * row - column, -50 + 3 * column]
}

fn with(correction: impl Fn(u32, u32) -> [i32; 2], height: impl Fn(u32, u32) -> i32) -> Grid {
    Grid::new(GEOMETRY, Some(HEIGHTS), correction, height).in_planes()
}

/// The nodes' bytes, all latitude corrections before all longitude corrections.
#[test]
fn planes_are_where_they_are_read() {
    let grid = with(sloping, |row, _| row as i32);
    let numbers = grid.image.chunks_exact(4);
    let numbers = numbers.map(|it| i32::from_le_bytes(it.try_into().expect("four bytes")));
    let numbers: Vec<i32> = numbers.take(9 + 9 + 3 * 4).collect();
    assert_eq!(numbers[..9], [100, 99, 98, 104, 103, 102, 108, 107, 106]);
    assert_eq!(numbers[9..18], [-50, -47, -44].repeat(3));
    assert_eq!(numbers[18..], [0, 0, 0, 1, 1, 1, 2, 2, 2, 3, 3, 3]);
    let kind_and_edition = &grid.image[grid.image.len() - 8..];
    assert_eq!(kind_and_edition, [3, 0, 0, 0, 2, 0, 0, 0]);
}

#[test]
fn answers_are_those_of_the_planes() {
    let grid = with(sloping, |row, _| 430_000 + 2 * row as i32);
    let found = |way, fix| answer(&grid, way, fix);
    assert_eq!(found(Back, [500, 0, 0]), [602, -50, 430_000, 1, 0]);
    assert_eq!(
        found(Back, [1_000, 2_000, 7]),
        [1_102, 1_956, 430_009, 1, 0]
    );
    // 100 + 4 × 1.5 − 0.5 = 105.5, whose half goes up, and −50 + 3 × 0.5 = −48.5, likewise.
    assert_eq!(found(Back, [1_500, 500, 0]), [1_606, 452, 430_004, 1, 0]);
    assert_eq!(found(Out, [1_102, 1_956, 430_009]), [1_000, 2_000, 7, 2, 0]);
    assert_eq!(found(Back, [2_001, 500, 0]), refused(8));
    assert_eq!(found(Out, [50, 500, 0]), refused(10));
    assert_eq!(found(Back, [499, 500, 0]), refused(15));
    assert_eq!(found(Back, [500, 500, 110_000_001]), refused(7));
}

/// Each correction has its own limit, and the height another.
#[test]
fn question_9_asks_both_planes() {
    let back = |correction: [i32; 2], height: i32| {
        let grid = with(move |_, _| correction, move |_, _| height);
        let number = grid_check(&grid.image, &mut [0; 6]);
        let [.., of_fix] = answer(&grid, Back, [1_000, 1_000, 0]);
        assert_eq!(number, of_fix);
        number
    };
    assert_eq!(back([10_000_000, -10_000_000], 1_000_000), 0);
    assert_eq!(back([10_000_001, 0], 0), 9);
    assert_eq!(back([0, -10_000_001], 0), 9);
    assert_eq!(back([0, 0], -1_000_001), 9);
}

#[test]
fn check_takes_the_steps_of_each_plane() {
    let found = |correction: fn(u32, u32) -> [i32; 2]| {
        let mut findings = [-1; 6];
        let grid = with(correction, |row, column| (row + 2 * column) as i32);
        (grid_check(&grid.image, &mut findings), findings)
    };
    assert_eq!(found(sloping), (0, [4, 1, 0, 3, 1, 2]));
    // The last longitude and the first latitude correction are no neighbours.
    assert_eq!(found(|_, _| [9_000, -9_000]), (0, [0, 0, 0, 0, 1, 2]));
    assert_eq!(found(|row, _| [11 * row as i32, 0]), (12, [-1; 6]));
    assert_eq!(found(|_, column| [0, 11 * column as i32]), (12, [-1; 6]));
}

/// Both kinds give the same answers and findings.
#[test]
fn answers_are_those_of_kind_0() {
    let planes = with(sloping, |row, column| (3 * row + column) as i32);
    let nodes = Grid::new(GEOMETRY, Some(HEIGHTS), sloping, |row, column| {
        (3 * row + column) as i32
    });
    assert_eq!(planes.image_of_kind_0(), nodes.image);
    for place in 0..1_024 {
        let fix = [place % 32 * 71 - 100, place / 32 * 73 - 100, 9];
        for way in [Out, Back] {
            assert_eq!(answer(&planes, way, fix), answer(&nodes, way, fix));
        }
    }
}
