//! Made-up values of nodes: constant, smooth, gentle, steep, rough, at their limits, and as far
//! apart as the library still weighs with one division.

use crate::random::Random;
use reference::Geometry;

/// The limits of question 9: latitude correction, longitude correction, height.
pub const LIMITS: [i64; 3] = [10_000_000, 10_000_000, 1_000_000];
/// The height's place among the three values.
pub const HEIGHT: usize = 2;

/// How the values of one kind lie over a grid.
#[derive(Clone, Copy)]
pub enum Manner {
    /// The same everywhere.
    Constant,
    /// Steps that question 12 allows.
    Smooth,
    /// Steps of up to a third of those.
    Gentle,
    /// Steps of two hundredths to more than a whole spacing.
    Steep,
    /// Random in some reach.
    Rough,
    /// At and just below the limits.
    Extreme,
    /// As far apart as the library still takes for near, and one further.
    NearlyApart,
}

/// The library weighs corners with one division where each lies at most so far from the
/// south-west one.
pub const NEAR: i64 = 32_767;

pub fn any_manner(random: &mut Random) -> Manner {
    random.pick(&[
        Manner::Constant,
        Manner::Smooth,
        Manner::Steep,
        Manner::Rough,
        Manner::Rough,
        Manner::Extreme,
        Manner::NearlyApart,
    ])
}

/// All nodes of a grid, the manner chosen for each of the three values.
pub fn nodes(
    random: &mut Random,
    geometry: &Geometry,
    mut manner: impl FnMut(&mut Random) -> Manner,
) -> Vec<[i32; 3]> {
    let mut nodes = vec![[0; 3]; geometry.nodes() as usize];
    for value in 0..3 {
        let chosen = manner(random);
        let plane = plane(random, geometry, value, chosen);
        for (node, of_plane) in nodes.iter_mut().zip(plane) {
            node[value] = of_plane;
        }
    }
    nodes
}

/// One value at all nodes, within its limit.
pub fn plane(random: &mut Random, geometry: &Geometry, value: usize, manner: Manner) -> Vec<i32> {
    let limit = LIMITS[value];
    unlimited_plane(random, geometry, value, manner)
        .into_iter()
        .map(|it| it.clamp(-limit, limit) as i32)
        .collect()
}

/// One value at all nodes, at times past its limit.
fn unlimited_plane(
    random: &mut Random,
    geometry: &Geometry,
    value: usize,
    manner: Manner,
) -> Vec<i64> {
    let length = geometry.nodes() as usize;
    let reach = reach(geometry, value);
    let limit = LIMITS[value];
    match manner {
        Manner::Constant => vec![any_constant(random, reach, limit); length],
        Manner::Smooth => {
            let share = random.between(0, 100);
            sum_of_walks(random, geometry, reach, [share, 100 - share])
        }
        Manner::Gentle => {
            let share = random.between(0, 30);
            sum_of_walks(random, geometry, reach, [share, 30 - share])
        }
        Manner::Steep => {
            let slope = 100 * random.pick(&[2, 5, 10, 20, 30, 50, 70, 90, 110]);
            let slopes = random.pick(&[[slope, 0], [0, slope], [slope / 2, slope / 2]]);
            sum_of_walks(random, geometry, reach, slopes)
        }
        Manner::Rough => {
            let reach = random.pick(&[1, 2, 5, 100, reach, reach, limit]);
            (0..length).map(|_| random.around_zero(reach)).collect()
        }
        Manner::Extreme => (0..length)
            .map(|_| random.pick(&[limit, -limit, limit - 1, 1 - limit, 0]))
            .collect(),
        Manner::NearlyApart => {
            let around = random.around_zero(reach);
            (0..length)
                .map(|_| around + random.pick(&[0, NEAR, -NEAR, NEAR + 1, -NEAR - 1]))
                .collect()
        }
    }
}

fn any_constant(random: &mut Random, reach: i64, limit: i64) -> i64 {
    let around = random.around_zero(reach);
    random.pick(&[0, 1, -1, 2, limit, -limit, around, around, around, around])
}

/// How large a value may be for a point in the middle half of the grid to stay in its bounds.
fn reach(geometry: &Geometry, value: usize) -> i64 {
    let extents = [
        i64::from(geometry.rows - 1) * i64::from(geometry.latitude_spacing),
        i64::from(geometry.columns - 1) * i64::from(geometry.longitude_spacing),
        i64::MAX,
    ];
    LIMITS[value].min(extents[value] / 4)
}

/// A walk by row plus a walk by column; the slopes, in ten-thousandths, bound their steps.
fn sum_of_walks(
    random: &mut Random,
    geometry: &Geometry,
    reach: i64,
    slopes: [i64; 2],
) -> Vec<i64> {
    let latitude_step = slopes[0] * i64::from(geometry.latitude_spacing) / 10_000;
    let longitude_step = slopes[1] * i64::from(geometry.longitude_spacing) / 10_000;
    let start = random.around_zero(reach);
    let by_row = walk(random, geometry.rows, latitude_step, start);
    let by_column = walk(random, geometry.columns, longitude_step, 0);
    by_row
        .iter()
        .flat_map(|row| by_column.iter().map(move |column| row + column))
        .collect()
}

/// Values along a line: the same step all along, or any step up to it.
pub fn walk(random: &mut Random, length: u32, step: i64, start: i64) -> Vec<i64> {
    let steady = random.chance(60).then(|| random.sign() * step);
    let mut value = start;
    (0..length)
        .map(|_| {
            let here = value;
            value += steady.unwrap_or_else(|| random.around_zero(step));
            here
        })
        .collect()
}
