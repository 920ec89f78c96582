//! Made-up corrections that are zero on the border, or almost.

use crate::cases::grid::Grid;
use crate::cases::values::{walk, LIMITS};
use crate::random::Random;
use reference::Geometry;

/// One correction: zero on the border, and from there on with steps that question 12 allows, or at
/// times with one that is 1 nd larger.
pub fn from_the_border(random: &mut Random, geometry: &Geometry) -> Vec<i32> {
    let any = random.between(1, 99);
    let share = random.pick(&[50, 50, 20, 80, any]);
    let shares = [share, 100 - share];
    let spacings = [geometry.latitude_spacing, geometry.longitude_spacing];
    let mut steps = [0, 1].map(|axis| shares[axis] * i64::from(spacings[axis]) / 10_000);
    if random.chance(8) {
        steps[random.below(2) as usize] += 1;
    }
    let start = match random.below(10) {
        // Above all that the border allows.
        0..4 => random.sign() * 2 * LIMITS[0],
        _ => random.around_zero(LIMITS[0]),
    };
    let by_row = walk(random, geometry.rows, steps[0], start);
    let by_column = walk(random, geometry.columns, steps[1], 0);
    let lines = [geometry.rows, geometry.columns].map(i64::from);
    let most = |row: usize, column: usize| {
        let from_border = |at: usize, lines: i64| (at as i64).min(lines - 1 - at as i64);
        let in_latitude = steps[0] * from_border(row, lines[0]);
        let in_longitude = steps[1] * from_border(column, lines[1]);
        in_latitude.min(in_longitude).min(LIMITS[0])
    };
    let places = geometry.node_places();
    let places = places.map(|(row, column)| (row as usize, column as usize));
    places
        .map(|(row, column)| {
            let most = most(row, column);
            (by_row[row] + by_column[column]).clamp(-most, most) as i32
        })
        .collect()
}

/// Makes the corrections zero at every border node.
pub fn clear_the_border(grid: &mut Grid<2>) {
    let geometry = grid.geometry;
    for (node, (row, column)) in grid.nodes.iter_mut().zip(geometry.node_places()) {
        if geometry.is_on_the_border(row, column) {
            *node = [0, 0];
        }
    }
}

/// Changes one node, at a corner, on a side or inside, most often by 1 nd and in one correction;
/// at times another one too.
pub fn disturb(random: &mut Random, grid: &mut Grid<2>) {
    for _ in 0..random.pick(&[1, 1, 1, 2]) {
        let lines = [grid.geometry.rows, grid.geometry.columns].map(i64::from);
        let [row, column] = lines.map(|lines| {
            let any = random.between(0, lines - 1);
            random.pick(&[0, lines - 1, any])
        });
        let node = grid.index(row, column);
        let limit = LIMITS[0] as i32;
        let value = random.below(2) as usize;
        let stands = &mut grid.nodes[node][value];
        let sign = random.sign() as i32;
        *stands = match random.below(10) {
            0 => sign * limit,
            1 => sign * (limit + 1),
            2 => stands.wrapping_neg(),
            _ => stands.wrapping_add(sign).clamp(-limit - 1, limit + 1),
        };
    }
}
