//! The dense corrections: as near to the parent's as question 21 wants, with one border node just
//! further off, or without regard to the parent.

use crate::cases::grid::Grid;
use crate::cases::over_grids::Grids;
use crate::cases::two_grids::grids::TwoGrids;
use crate::cases::values::{any_manner, plane, Manner, LIMITS};
use crate::random::Random;
use reference::{open_image, Fraction, Geometry, Image};

/// One of the whole numbers near the parent's exact value.
#[derive(Clone, Copy)]
enum Near {
    /// The rounded value.
    Rounded,
    /// The lowest that question 21 lets pass.
    Lowest,
    /// The highest.
    Highest,
}

impl Near {
    fn to(self, exact: Fraction) -> i64 {
        let (numerator, denominator) = exact.parts();
        let near = match self {
            Near::Rounded => exact.plus_half_rounded_down(),
            Near::Lowest => -Fraction::new(denominator - numerator, denominator).rounded_down(),
            Near::Highest => exact.plus(Fraction::new(1, 1)).rounded_down(),
        };
        near as i64
    }
}

/// How one correction of the dense nodes follows from the parent's.
struct Following {
    near: Near,
    /// By so much all nodes lie higher.
    shift: i64,
    /// By so much more each node, for each node between it and the border.
    rise: i64,
    /// All nodes have what the south-western one has.
    is_constant: bool,
}

impl Following {
    /// A correction whose border question 21 lets pass.
    fn agreeing(random: &mut Random, dense: &Geometry) -> Following {
        let narrow = i64::from(dense.latitude_spacing.min(dense.longitude_spacing));
        let most = narrow / 400;
        let any = random.around_zero(most);
        let rise = random.pick(&[0, any, most, -most]);
        Following {
            near: random.pick(&[Near::Rounded, Near::Lowest, Near::Highest]),
            shift: 0,
            rise,
            is_constant: narrow < 100 && random.chance(80),
        }
    }

    /// One that lies off the parent's all over.
    fn shifted(random: &mut Random, dense: &Geometry) -> Following {
        let far = random.around_zero(LIMITS[0]);
        Following {
            shift: random.pick(&[-1, 1, 2, -2, 3, -4, 50, -5_000, far]),
            ..Following::agreeing(random, dense)
        }
    }

    fn value(&self, exact: Fraction, depth: i64) -> i64 {
        self.near.to(exact) + self.shift + self.rise * depth
    }
}

/// Dense corrections as question 21 wants them, most often with steps that question 12 allows.
pub fn agreeing(random: &mut Random, geometry: Geometry, two: &TwoGrids) -> Grid<2> {
    let following = [0, 1].map(|_| Following::agreeing(random, &geometry));
    following_the_parent(geometry, &exact_corrections(&geometry, two), following)
}

/// The same, but one node of the border just further off than 1 nd: of some nodes often the one
/// that is then the least off.
pub fn just_differing(random: &mut Random, geometry: Geometry, two: &TwoGrids) -> Grid<2> {
    let following = [0, 1].map(|_| Following::agreeing(random, &geometry));
    let parent = exact_corrections(&geometry, two);
    let mut grid = following_the_parent(geometry, &parent, following);
    let value = random.below(2) as usize;
    let is_above = random.chance(50);
    let tries = random.pick(&[1, 1, 30]);
    let past = (0..tries).map(|_| {
        let (row, column) = border_node(random, &geometry);
        let node = grid.index(row, column);
        let (past, off) = just_past(parent[node][value], is_above);
        (off, node, past)
    });
    let (_, node, past) = past.min().expect("a border node");
    grid.nodes[node][value] = within_limit(past);
    grid
}

/// The nearest whole number above or below that is further than 1 nd from an exact value, and how
/// far off it is, in millionths of an nd.
fn just_past(exact: Fraction, is_above: bool) -> (i64, i128) {
    let past = if is_above {
        Near::Highest.to(exact) + 1
    } else {
        Near::Lowest.to(exact) - 1
    };
    let (numerator, denominator) = exact.parts();
    let difference = i128::from(past) * denominator - numerator;
    (past, difference.abs() * 1_000_000 / denominator)
}

/// Dense corrections that lie off the parent's.
pub fn shifted(random: &mut Random, geometry: Geometry, two: &TwoGrids) -> Grid<2> {
    let following = [0, 1].map(|_| Following::shifted(random, &geometry));
    following_the_parent(geometry, &exact_corrections(&geometry, two), following)
}

/// Dense corrections in any manner.
pub fn unrelated(random: &mut Random, geometry: Geometry) -> Grid<2> {
    let [latitude, longitude] = [0, 1].map(|value| {
        let any = any_manner(random);
        let manner = random.pick(&[any, any, Manner::NearlyApart]);
        plane(random, &geometry, value, manner)
    });
    let nodes = latitude.into_iter().zip(longitude);
    Grid::of_corrections(geometry, nodes.map(|(one, other)| [one, other]).collect())
}

fn following_the_parent(
    geometry: Geometry,
    parent: &[[Fraction; 2]],
    following: [Following; 2],
) -> Grid<2> {
    let nodes = geometry.node_places().zip(parent);
    let nodes = nodes.map(|(place, here)| {
        let depth = depth(&geometry, place);
        [0, 1].map(|value| {
            let by = &following[value];
            let from = if by.is_constant { &parent[0] } else { here };
            within_limit(by.value(from[value], depth))
        })
    });
    Grid::of_corrections(geometry, nodes.collect())
}

/// The parent's exact corrections at each dense node; 0 where a node of its cell is unfit.
fn exact_corrections(dense: &Geometry, two: &TwoGrids) -> Vec<[Fraction; 2]> {
    let bytes = two.image();
    let Ok(Image::TwoGrids { corrections, .. }) = open_image(&bytes) else {
        panic!("an image of two grids");
    };
    let exact = |(row, column)| corrections.exact_values(dense.node_point(row, column));
    let nothing = [Fraction::new(0, 1); 2];
    let places = dense.node_places();
    places.map(|it| exact(it).unwrap_or(nothing)).collect()
}

/// How many nodes stand between a node and the border, itself included: 0 on the border.
fn depth(geometry: &Geometry, (row, column): (i128, i128)) -> i64 {
    let (rows, columns) = (i128::from(geometry.rows), i128::from(geometry.columns));
    let in_latitude = row.min(rows - 1 - row);
    in_latitude.min(column).min(columns - 1 - column) as i64
}

/// A node on the border, at a corner often.
fn border_node(random: &mut Random, geometry: &Geometry) -> (i64, i64) {
    let last = [
        i64::from(geometry.rows) - 1,
        i64::from(geometry.columns) - 1,
    ];
    let corner = last.map(|it| random.pick(&[0, it]));
    let any = last.map(|it| random.between(0, it));
    match random.below(3) {
        0 => (corner[0], corner[1]),
        1 => (corner[0], any[1]),
        _ => (any[0], corner[1]),
    }
}

fn within_limit(correction: i64) -> i32 {
    correction.clamp(-LIMITS[0], LIMITS[0]) as i32
}
