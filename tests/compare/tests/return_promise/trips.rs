//! Points and heights within the promise's margins and limits, and a trip out and back.

use compare::{Call, Random, Stream};
use reference::{grid_check, open_image, way_back, way_out, Answer, Fix, Image, Point};

const SEED: u64 = 11;

/// A point at least so far inside all four bounds, if there is one: "The return promise's margins
/// count from both grids' bounds", which in edition 1 are the same.
pub fn point_inside(random: &mut Random, image: &Image, depth: i128) -> Option<Point> {
    let grids = [image.correction_geometry(), image.height_geometry()];
    let mut angle = |lows: [i64; 2], highs: [i128; 2]| {
        let low = i128::from(lows[0].max(lows[1])) + depth;
        let high = highs[0].min(highs[1]) - depth;
        let edge = random.pick(&[Some(low), Some(high), None, None]);
        let inner = (low <= high).then(|| random.between(low as i64, high as i64))?;
        Some(edge.unwrap_or(inner.into()))
    };
    Some(Point {
        latitude: angle(grids.map(|it| it.south), grids.map(|it| it.north()))?,
        longitude: angle(grids.map(|it| it.west), grids.map(|it| it.east()))?,
    })
}

/// A height within the limit of zero, at the limit often.
pub fn height_within(random: &mut Random, limit: i64) -> i128 {
    let inner = random.around_zero(limit);
    random.pick(&[limit, -limit, inner, inner]).into()
}

/// The larger of the two angles' differences.
pub fn distance(one: Point, other: Point) -> u128 {
    let latitude = one.latitude.abs_diff(other.latitude);
    latitude.max(one.longitude.abs_diff(other.longitude))
}

/// "A trip hands the second way the two angles and the height that the first one answered." Where
/// it answered none, a list has 0.
pub fn fix_of(answer: Answer) -> Fix {
    Fix {
        point: answer.point,
        height: answer.height.unwrap_or(0),
    }
}

/// A trip of "every fix at least 10,000,000 nd inside all four bounds, height in limits": the way
/// out's answer, and how far the fix returns. "Height exact".
pub fn out_and_back(image: &Image, fix: Fix) -> (Answer, u128) {
    let out = way_out(image, fix).expect("answered going out");
    assert!((1..=5).contains(&out.count));
    let back = way_back(image, fix_of(out)).expect("taken back");
    assert_eq!(back.height, Some(fix.height));
    (out, distance(back.point, fix.point))
}

/// Does something for each image of so many cases that passes the check.
pub fn for_each_passing(stream: Stream, cases: u64, mut action: impl FnMut(&mut Random, &Image)) {
    for index in 0..cases {
        let Call::GridCheck { image } = stream.call(SEED, index) else {
            continue;
        };
        if grid_check(&image).is_ok() {
            let image = open_image(&image).expect("checked");
            action(&mut Random::for_case(SEED + 1, index), &image);
        }
    }
}
