//! Made-up lists: fixes over a grid with every relation of the two lengths, and lists out whose
//! way meets an unfit cell at a chosen evaluation.

use super::fixes::{any_fix, inner_fix};
use super::grid::{any_grid, grid_to_move_in, Grid};
use crate::random::Random;
use crate::steps::{cell_of, points_on_the_way};
use crate::{Call, List, Way};
use reference::{open_image, Image, Point};

/// A list out over any fit image.
pub fn list_out(random: &mut Random) -> Call {
    let mut grid = grid_to_move_in(random);
    if random.chance(30) {
        let fix = spoil_on_the_way(random, &mut grid);
        return list_of_one(fix, grid.image());
    }
    let image = grid.image();
    list_over(random, Way::Out, &grid, image)
}

/// A list back over any fit image.
pub fn list_back(random: &mut Random) -> Call {
    let grid = any_grid(random);
    let image = grid.image();
    list_over(random, Way::Back, &grid, image)
}

/// A list over an image, with fixes that suit the grid.
pub fn list_over(random: &mut Random, way: Way, grid: &Grid<3>, image: Vec<u8>) -> Call {
    let any = |random: &mut Random| any_fix(random, grid);
    let inner = |random: &mut Random| inner_fix(random, &grid.geometry);
    list_of(random, way, image, any, inner)
}

/// A list out of one fix.
pub fn list_of_one(fix: [i64; 3], image: Vec<u8>) -> Call {
    Call::List(List {
        way: Way::Out,
        image,
        fixes: fix.to_vec(),
        answers_length: 5,
    })
}

/// A list of some length: its fixes of any kind, or all of them inner ones.
pub fn list_of(
    random: &mut Random,
    way: Way,
    image: Vec<u8>,
    any_fix: impl Fn(&mut Random) -> [i64; 3],
    inner_fix: impl Fn(&mut Random) -> [i64; 3],
) -> Call {
    let length = random.pick(&[0, 1, 1, 2, 3, 4, 5, 6, 8, 10, 24]);
    let inner = random.chance(30);
    let mut fixes: Vec<i64> = (0..length)
        .flat_map(|_| {
            if inner {
                inner_fix(random)
            } else {
                any_fix(random)
            }
        })
        .collect();
    let mut answers_length = 5 * length;
    if random.chance(8) {
        answers_length = other_length(random, length);
    }
    if random.chance(4) {
        let fixes_length = fixes.len() + random.below(5) as usize;
        fixes.resize(fixes_length.saturating_sub(2), 0);
    }
    Call::List(List {
        way,
        image,
        fixes,
        answers_length,
    })
}

/// A length of the answer list that does not suit so many fixes, most often.
fn other_length(random: &mut Random, length: usize) -> usize {
    let suits = 5 * length;
    let any = random.below(60) as usize;
    let less = |by: usize| suits.saturating_sub(by);
    let choices = [less(1), suits + 1, less(5), suits + 5, 3 * length, 0, any];
    random.pick(&choices)
}

/// Makes one node unfit in a cell on the way out from a fix, which is given.
fn spoil_on_the_way(random: &mut Random, grid: &mut Grid<3>) -> [i64; 3] {
    let bytes = grid.image();
    let image = open_image(&bytes).expect("a fit image");
    let inner = |random: &mut Random| inner_fix(random, &grid.geometry);
    let fix = fix_with_a_long_way(random, &image, inner);
    let (row, column) = node_on_the_way(random, &cells_on_the_way(&image, fix));
    let node = grid.index(row, column);
    grid.spoil(random, node);
    fix
}

/// A fix whose way out can be looked up as far as p5 and changes cell in its last step, if a few
/// draws find one.
pub fn fix_with_a_long_way(
    random: &mut Random,
    image: &Image,
    inner_fix: impl Fn(&mut Random) -> [i64; 3],
) -> [i64; 3] {
    let mut fix = inner_fix(random);
    for _ in 0..6 {
        let cells = cells_on_the_way(image, fix);
        if cells.len() == 6 && cells[4] != cells[5] {
            break;
        }
        fix = inner_fix(random);
    }
    fix
}

/// Row and column of a node of one of the cells, the last one often: a node that no earlier cell
/// has, if there is one.
pub fn node_on_the_way(random: &mut Random, cells: &[(i64, i64)]) -> (i64, i64) {
    let k = if random.chance(50) {
        cells.len() - 1
    } else {
        random.below(cells.len() as u64) as usize
    };
    let used: Vec<_> = cells[..k].iter().flat_map(|cell| corners(*cell)).collect();
    let own = corners(cells[k]);
    let unused: Vec<_> = own
        .into_iter()
        .filter(|node| !used.contains(node))
        .collect();
    if unused.is_empty() {
        random.pick(&own)
    } else {
        random.pick(&unused)
    }
}

/// The rows and columns of a cell's four nodes.
fn corners((row, column): (i64, i64)) -> [(i64, i64); 4] {
    [
        (row, column),
        (row, column + 1),
        (row + 1, column),
        (row + 1, column + 1),
    ]
}

/// The cells of p0, p1 and on to p5 in the correction grid, as far as they can be looked up.
pub fn cells_on_the_way(image: &Image, fix: [i64; 3]) -> Vec<(i64, i64)> {
    points_on_the_way(image, point_of(fix))
        .into_iter()
        .map(|point| cell_of(image.correction_geometry(), point))
        .collect()
}

/// The point of a fix.
pub fn point_of(fix: [i64; 3]) -> Point {
    Point {
        latitude: fix[0].into(),
        longitude: fix[1].into(),
    }
}
