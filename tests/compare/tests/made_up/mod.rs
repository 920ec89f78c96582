//! The made-up calls of a stream, and what can be said of their grids and points.

use compare::{points_until_the_stop, stop_rule_holds, Call, Stream, Way};
use reference::{
    grid_check, open_image, Fix, Fraction, Geometry, Grid, Image, Number, Point, DEGREE,
};
use std::cmp::Ordering;
use std::collections::BTreeSet;

pub const SEED: u64 = 7;
const CASES: u64 = 20_000;

pub fn calls(stream: Stream) -> impl Iterator<Item = Call> {
    (0..CASES).map(move |index| stream.call(SEED, index))
}

/// The images of all calls that take one.
pub fn images(stream: Stream) -> impl Iterator<Item = Vec<u8>> {
    calls(stream).filter_map(|call| call.image().map(<[u8]>::to_vec))
}

/// The images of the check's calls.
pub fn checked_images(stream: Stream) -> impl Iterator<Item = Vec<u8>> {
    calls(stream).filter_map(|call| match call {
        Call::GridCheck { image } => Some(image),
        _ => None,
    })
}

/// Does something for every point of the lists of one way over fit images.
pub fn for_each_point(stream: Stream, wanted: Way, mut action: impl FnMut(&Image, Point)) {
    for call in calls(stream) {
        let Call::List(list) = call else {
            continue;
        };
        let Ok(image) = open_image(&list.image) else {
            continue;
        };
        let fixes = list.fixes.chunks_exact(3);
        for fix in fixes.filter(|_| list.way == wanted) {
            let point = Point {
                latitude: fix[0].into(),
                longitude: fix[1].into(),
            };
            action(&image, point);
        }
    }
}

/// The case of document 02's note 3: whether the sum is negative, and how twice the remainder of its
/// absolute value compares with P × Q.
pub fn rounding_case(exact: Fraction) -> (bool, Ordering) {
    let (sum, area) = exact.parts();
    (sum < 0, (2 * (sum.abs() % area)).cmp(&area))
}

/// The largest distance of a cell's corners, south-west first, from the south-west one.
pub fn furthest_apart(corners: impl Iterator<Item = i32>) -> i64 {
    let corners: Vec<i64> = corners.map(i64::from).collect();
    let distances = corners.iter().map(|it| (it - corners[0]).abs());
    distances.max().expect("four corners")
}

/// Where a point lies by the bounds in latitude and in longitude.
pub fn place_by_bounds(geometry: &Geometry, point: Point) -> (&'static str, &'static str) {
    let place = |angle: i128, low: i128, high: i128| match angle {
        _ if angle == low => "low",
        _ if angle == high => "high",
        _ if angle == low - 1 || angle == high + 1 => "outside",
        _ => "other",
    };
    (
        place(point.latitude, geometry.south.into(), geometry.north()),
        place(point.longitude, geometry.west.into(), geometry.east()),
    )
}

/// Which of the first and last row and column a node is in.
pub fn place_of_node(
    geometry: &Geometry,
    (row, column): (i128, i128),
) -> (&'static str, &'static str) {
    let end = |at: i128, lines: u32, low, high| match at {
        0 => low,
        _ if at == i128::from(lines) - 1 => high,
        _ => "",
    };
    (
        end(row, geometry.rows, "south", "north"),
        end(column, geometry.columns, "west", "east"),
    )
}

/// The points of the way out until the stop, where the stop rule held.
pub fn settled(image: &Image, given: Point) -> Option<Vec<Point>> {
    let points = points_until_the_stop(image, given);
    match points.as_slice() {
        [.., before, last] if stop_rule_holds(image.stop_distance(), *before, *last) => {
            Some(points)
        }
        _ => None,
    }
}

/// The steps of the ways out on which an answer to some question about their points changes: which
/// step it is, whether it is the last one, and the answer after it.
pub fn changing_steps(
    stream: Stream,
    is_so: impl Fn(&Image, Point) -> Option<bool>,
) -> BTreeSet<(usize, bool, bool)> {
    let mut met = BTreeSet::new();
    for_each_point(stream, Way::Out, |image, point| {
        let Some(points) = settled(image, point) else {
            return;
        };
        let count = points.len() - 1;
        for step in 1..=count {
            let sides = [points[step - 1], points[step]].map(|it| is_so(image, it));
            if let [Some(before), Some(after)] = sides {
                if before != after {
                    met.insert((step, step == count, after));
                }
            }
        }
    });
    met
}

/// Which limits are met in the check's calls by the geometries that are picked, of nine; the tenth
/// is a pass with all steps above 0.
pub fn limits_of_checked(
    stream: Stream,
    pick: impl Fn(&Image) -> Geometry,
) -> BTreeSet<&'static str> {
    let mut met = BTreeSet::new();
    for image in checked_images(stream) {
        let Ok(opened) = open_image(&image) else {
            continue;
        };
        let steps = grid_check(&image).unwrap_or([0; 6]);
        if steps.iter().all(|step| *step > 0) {
            met.insert("all steps");
        }
        met.extend(limits_met(&pick(&opened)));
    }
    met
}

/// Which limits of the geometry are met, of nine.
fn limits_met(geometry: &Geometry) -> impl Iterator<Item = &'static str> {
    let degrees = |bound: i128| bound.abs() / DEGREE;
    let events = [
        ("spacing 1", geometry.latitude_spacing == 1),
        ("largest spacing", geometry.longitude_spacing == 100_000_000),
        ("4,096 rows", geometry.rows == 4_096),
        ("4,096 columns", geometry.columns == 4_096),
        ("2 × 2", geometry.rows == 2 && geometry.columns == 2),
        ("south pole", degrees(geometry.south.into()) == 90),
        ("north pole", degrees(geometry.north()) == 90),
        ("180 west", degrees(geometry.west.into()) == 180),
        ("180 east", degrees(geometry.east()) == 180),
    ];
    events.into_iter().filter(|(_, met)| *met).map(|it| it.0)
}

/// The first of questions 3 to 5 whose answer is no, or else 6.
pub fn question(geometry: &Geometry) -> i32 {
    match geometry {
        _ if !geometry.counts_fit() => 3,
        _ if !geometry.spacings_fit() => 4,
        _ if !geometry.bounds_fit() => 5,
        _ => 6,
    }
}

/// Which fields of a geometry make it unfit: with a small number in its place, the answer to the
/// same question is yes.
pub fn broken_fields(geometry: Geometry) -> Vec<&'static str> {
    let fields: [(_, fn(&mut Geometry)); 6] = [
        ("south", |it| it.south = 0),
        ("west", |it| it.west = 0),
        ("latitude spacing", |it| it.latitude_spacing = 2),
        ("longitude spacing", |it| it.longitude_spacing = 2),
        ("rows", |it| it.rows = 2),
        ("columns", |it| it.columns = 2),
    ];
    let is_broken = |mend: fn(&mut Geometry)| {
        let mut mended = geometry;
        mend(&mut mended);
        question(&mended) > question(&geometry)
    };
    let broken = fields.into_iter().filter(|(_, mend)| is_broken(*mend));
    broken.map(|(name, _)| name).collect()
}

/// For each value of a grid's nodes which of its limits are met: at −1 and 1 the limit of that
/// sign, at −2 and 2 one past it.
pub fn limits_of_nodes<const VALUES: usize>(grid: &Grid<VALUES>) -> Vec<(usize, i128)> {
    let places = grid.geometry.node_places();
    let nodes = places.map(|(row, column)| grid.node(row, column));
    let mut met = Vec::new();
    for node in nodes {
        for (value, limit) in grid.limits.into_iter().enumerate() {
            let stands = i128::from(node[value]);
            let past = stands.abs() - limit;
            if past == 0 || past == 1 {
                met.push((value, stands.signum() * (past + 1)));
            }
        }
    }
    met
}

/// The bytes with another kind.
pub fn with_kind(mut image: Vec<u8>, kind: u32) -> Vec<u8> {
    let place = image.len() - 8;
    image[place..place + 4].copy_from_slice(&kind.to_le_bytes());
    image
}

/// A fix at a point, with height 0.
pub fn fix(point: Point) -> Fix {
    Fix { point, height: 0 }
}

/// The number, 0 for values.
pub fn number_of<T>(result: Result<T, Number>) -> Number {
    result.err().unwrap_or(0)
}
