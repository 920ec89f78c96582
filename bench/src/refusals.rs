//! That the library and the i128 implementation refuse changed images of edition 2 alike.

use bench::grid::{self, Geometry, Grid};
use bench::{library, plain, Edition, GridCheck, Implementation, Way};

/// What is changed in an image, and the number that the check gives it then.
type Change = (fn(&Grid) -> Vec<u8>, i64);

/// Where the 36 bytes of the dense geometry begin.
fn dense_trailer(grid: &Grid) -> usize {
    8 * grid.dense.as_ref().map_or(0, Geometry::nodes)
}

/// The image with a number of 4 bytes raised by so much, at a place.
fn raised(grid: &Grid, at: usize, by: i32) -> Vec<u8> {
    let mut image = grid.image.clone();
    let bytes = &mut image[at..at + 4];
    let number = i32::from_le_bytes(bytes.try_into().expect("four bytes"));
    bytes.copy_from_slice(&number.wrapping_add(by).to_le_bytes());
    image
}

/// Where the trailer begins.
fn trailer(grid: &Grid) -> usize {
    grid.image.len() - 80
}

/// The node in the middle of the dense grid, or else of the corrections.
fn middle_node(grid: &Grid) -> usize {
    match &grid.dense {
        Some(dense) => 8 * (dense.nodes() / 2),
        None => middle_places(grid)[0],
    }
}

/// Where the corrections of the node in their middle stand.
fn middle_places(grid: &Grid) -> [usize; 2] {
    let Geometry { rows, columns, .. } = grid.corrections;
    grid.correction_places(rows / 2, columns / 2)
}

/// Where those of the first node stand.
fn first_places(grid: &Grid) -> [usize; 2] {
    grid.correction_places(0, 0)
}

/// Where those of the last node stand.
fn last_places(grid: &Grid) -> [usize; 2] {
    let Geometry { rows, columns, .. } = grid.corrections;
    grid.correction_places(rows - 1, columns - 1)
}

/// Where those of the eastern node in the middle of the rows stand.
fn eastern_places(grid: &Grid) -> [usize; 2] {
    let Geometry { rows, columns, .. } = grid.corrections;
    grid.correction_places(rows / 2, columns - 1)
}

/// Those of kind 1.
const WITH_DENSE: [Change; 19] = [
    (|grid| grid.image.clone(), 0),
    (|grid| grid.image[1..].to_vec(), 6),
    (|grid| grid.image[dense_trailer(grid)..].to_vec(), 6),
    (|grid| grid.image[dense_trailer(grid) + 1..].to_vec(), 1),
    (|grid| raised(grid, grid.image.len() - 16, 1 << 30), 1),
    (|grid| raised(grid, grid.image.len() - 8, 3), 2),
    (|grid| raised(grid, dense_trailer(grid) + 24, 4_096), 3),
    (|grid| raised(grid, dense_trailer(grid) + 20, -4_000_000), 4),
    (|grid| raised(grid, dense_trailer(grid) + 4, 1_000), 5),
    (|grid| raised(grid, dense_trailer(grid) + 32, 8), 6),
    (|grid| raised(grid, dense_trailer(grid), 1), 20),
    (|grid| raised(grid, dense_trailer(grid) + 8, -1), 20),
    (|grid| raised(grid, dense_trailer(grid) + 16, 1), 20),
    (|grid| raised(grid, dense_trailer(grid) + 20, 1), 20),
    (|grid| raised(grid, middle_node(grid), 20_000_000), 9),
    (|grid| raised(grid, middle_node(grid), 100_000), 12),
    (|grid| raised(grid, 0, 2), 21),
    (|grid| raised(grid, 4, -2), 21),
    (|grid| raised(grid, dense_trailer(grid) - 8, -2), 21),
];

/// Those of the kinds without a dense grid.
const WITHOUT_DENSE: [Change; 12] = [
    (|grid| grid.image.clone(), 0),
    (|grid| grid.image[1..].to_vec(), 6),
    (|grid| grid.image[trailer(grid)..].to_vec(), 6),
    (|grid| grid.image[trailer(grid) + 1..].to_vec(), 1),
    (|grid| raised(grid, trailer(grid) + 72, 4), 2),
    (|grid| raised(grid, trailer(grid) + 24, 4_096), 3),
    (|grid| raised(grid, trailer(grid) + 48, 100_000_000), 4),
    (|grid| raised(grid, trailer(grid) + 4, 1_000), 5),
    (|grid| raised(grid, trailer(grid) + 64, 8), 6),
    (|grid| raised(grid, 0, 20_000_000), 9),
    (|grid| raised(grid, trailer(grid) - 4, 20_000_000), 9),
    (|grid| raised(grid, middle_node(grid), 100_000), 12),
];

/// Those of kind 2 alone.
const UNBOUNDED: [Change; 4] = [
    (|grid| raised(grid, first_places(grid)[0], 1), 22),
    (|grid| raised(grid, last_places(grid)[1], -1), 22),
    (|grid| raised(grid, eastern_places(grid)[0], 1), 22),
    (|grid| raised(grid, eastern_places(grid)[1], 1_000_000), 22),
];

/// Those of kind 3 alone: in the longitude corrections.
const IN_PLANES: [Change; 4] = [
    (|grid| raised(grid, first_places(grid)[1], -20_000_000), 9),
    (|grid| raised(grid, last_places(grid)[1], -20_000_000), 9),
    (|grid| raised(grid, middle_places(grid)[1], 100_000), 12),
    (|grid| raised(grid, last_places(grid)[1], 300_000), 12),
];

/// Changed images of an edition, each with its number of the check: 0 of one that is as it was.
fn changed(edition: Edition) -> Vec<(Vec<u8>, i64)> {
    let changes: [&[Change]; 2] = match edition {
        Edition::First => [&[], &[]],
        Edition::Second => [&WITHOUT_DENSE, &[]],
        Edition::SecondDense => [&WITH_DENSE, &[]],
        Edition::SecondUnbounded => [&WITHOUT_DENSE, &UNBOUNDED],
        Edition::SecondPlanes => [&WITHOUT_DENSE, &IN_PLANES],
    };
    let grid = grid::national(edition, 21, 21);
    let changes = changes.into_iter().flatten();
    changes.map(|(change, it)| (change(&grid), *it)).collect()
}

/// Changed images of all kinds that are refused by all calls, each with its number.
pub fn unfit() -> Vec<(Vec<u8>, i64)> {
    let images = Edition::ALL.into_iter().flat_map(changed);
    images.filter(|(_, it)| number_of_image(*it) != 0).collect()
}

/// The number of calls other than the check, to which its last questions are not put.
fn number_of_image(number: i64) -> i64 {
    let of_check_alone = [9, 12, 21, 22].contains(&number);
    if of_check_alone {
        0
    } else {
        number
    }
}

/// Compares the checks and the lists of both over changed images of an edition, and how many they
/// refused. A list is refused by the same number, unless it is one of the check alone.
pub fn require(edition: Edition) -> usize {
    let images = changed(edition);
    for (image, wanted) in &images {
        require_number(image, *wanted);
    }
    images.iter().filter(|(_, number)| *number != 0).count()
}

fn require_number(image: &[u8], wanted: i64) {
    let checks: [GridCheck; 2] = [library::grid_check, plain::grid_check];
    let numbers = checks.map(|grid_check| grid_check(image, &mut [0; 6]));
    assert_eq!(numbers, [wanted; 2], "the checks differ");
    let of_image = number_of_image(wanted);
    for way in [Way::Out, Way::Back] {
        for implementation in [Implementation::Library, Implementation::Plain] {
            let number = implementation.list(way, image, &[], &mut []);
            assert_eq!(number, of_image, "{implementation:?} {way:?}");
        }
    }
}
