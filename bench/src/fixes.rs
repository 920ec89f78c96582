//! Made-up fixes, the same in every run.

use crate::grid::{Geometry, Grid};

/// Distance from the bounds within which no fix is made, so that every fix is answered.
const MARGIN: i64 = 10_000_000;

/// So many fixes spread over the corrections, each at least 10,000,000 nd inside, with heights from
/// 0 to 100 m. With a dense grid every other one lies in its bounds.
pub fn spread_over(grid: &Grid, count: usize) -> Vec<i64> {
    let anywhere = inner(&grid.corrections);
    let every_other = grid.dense.as_ref().map(|dense| {
        let bounds = [
            [dense.south, dense.south + dense.height()],
            [dense.west, dense.west + dense.width()],
        ];
        [0, 1].map(|axis| {
            let ([low, high], [least, most]) = (bounds[axis], anywhere[axis]);
            [low.max(least), high.min(most)]
        })
    });
    spread_between([every_other.unwrap_or(anywhere), anywhere], count)
}

/// So many fixes, every other one past the edge of the corrections, by up to a degree in latitude, in
/// longitude or in both; the others inside as above.
pub fn past_the_edge(grid: &Grid, count: usize) -> Vec<i64> {
    let geometry = &grid.corrections;
    let mut fixes = spread(geometry, count);
    let ends = [
        [geometry.south, geometry.south + geometry.height()],
        [geometry.west, geometry.west + geometry.width()],
    ];
    for (index, fix) in fixes.chunks_exact_mut(3).enumerate().step_by(2) {
        let drawn = mixed(index as u64);
        let axes = [&[0][..], &[1], &[0, 1]][(drawn % 3) as usize];
        for axis in axes {
            let past = (mixed(drawn + 1 + *axis as u64) % 1_000_000_000) as i64 + 1;
            let [low, high] = ends[*axis];
            fix[*axis] = if drawn & 8 == 0 {
                low - past
            } else {
                high + past
            };
        }
    }
    fixes
}

/// So many fixes spread over a geometry, likewise.
pub fn spread(geometry: &Geometry, count: usize) -> Vec<i64> {
    spread_between([inner(geometry); 2], count)
}

/// The bounds in latitude and in longitude within which fixes are made.
type Bounds = [[i64; 2]; 2];

fn inner(geometry: &Geometry) -> Bounds {
    let between = |low: i64, extent: i64| [low + MARGIN, low + extent - MARGIN];
    [
        between(geometry.south, geometry.height()),
        between(geometry.west, geometry.width()),
    ]
}

/// So many fixes, between these bounds in turn.
fn spread_between(bounds: [Bounds; 2], count: usize) -> Vec<i64> {
    let mut state = 0;
    let mut below = |limit: i64| {
        state += 1;
        (mixed(state) % limit as u64) as i64
    };
    let mut fixes = Vec::with_capacity(3 * count);
    for index in 0..count {
        for [low, high] in bounds[index % 2] {
            fixes.push(low + below(high - low + 1));
        }
        fixes.push(below(1_000_001));
    }
    fixes
}

/// So many fixes that a list call answers or refuses: on, next to, within and past the bounds, and
/// on and past the limits.
pub fn anywhere(geometry: &Geometry, count: usize) -> Vec<i64> {
    let spots = |start: i64, length: i64, index: u64| {
        let spot = (mixed(index) % (length as u64 + 4_000_000)) as i64;
        let next = (mixed(index + 2) % 3) as i64 - 1;
        let places = [
            start + next,
            start + length + next,
            start - 2_000_000 + spot,
        ];
        places[(mixed(index + 1) % 3) as usize]
    };
    let heights = [0, 100_000_000, 100_000_001, -110_000_000, 110_000_001];
    let mut fixes = Vec::with_capacity(3 * count);
    for index in 0..count as u64 {
        fixes.push(spots(geometry.south, geometry.height(), 7 * index));
        fixes.push(spots(geometry.west, geometry.width(), 7 * index + 3));
        fixes.push(heights[(mixed(index) % 5) as usize]);
    }
    fixes
}

/// The fix in the middle of the grid, so many times.
pub fn middle(geometry: &Geometry, count: usize) -> Vec<i64> {
    let latitude = geometry.south + geometry.height() / 2;
    let longitude = geometry.west + geometry.width() / 2;
    [latitude, longitude, 500_000].repeat(count)
}

/// A number without a pattern for each number (splitmix64).
pub fn mixed(number: u64) -> u64 {
    let mut z = number.wrapping_add(1).wrapping_mul(0x9E37_79B9_7F4A_7C15);
    z = (z ^ (z >> 30)).wrapping_mul(0xBF58_476D_1CE4_E5B9);
    z = (z ^ (z >> 27)).wrapping_mul(0x94D0_49BB_1331_11EB);
    z ^ (z >> 31)
}
