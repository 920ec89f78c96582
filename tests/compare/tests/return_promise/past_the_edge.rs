//! Note 6: "If such an image passes the check, every fix within question 7's limits, without a
//! margin, is answered going out after at most five evaluations, and its angles return within 1 nd."

use crate::trips::{distance, fix_of, for_each_passing, height_within};
use compare::{Random, Stream};
use reference::{
    grid_check, open_image, way_back, way_out, write_two_grids, Fix, Geometry, Image, Point,
    TwoGridTrailer, DEGREE,
};

const LIMITS: [i128; 2] = [90 * DEGREE, 180 * DEGREE];

/// What was seen on the trips.
#[derive(Debug, Default)]
struct Seen {
    trips: u32,
    outside: u32,
    without_height: u32,
    furthest: u128,
    most: i128,
}

impl Seen {
    /// Makes a trip out and back, and asserts what is promised of it.
    fn add(&mut self, image: &Image, fix: Fix) {
        let out = way_out(image, fix).expect("answered going out");
        assert!((1..=5).contains(&out.count));
        assert!(is_within_the_limits(out.point), "{out:?}");
        let back = way_back(image, fix_of(out)).expect("taken back");
        let returned = distance(back.point, fix.point);
        assert!(returned <= 1, "{fix:?} {out:?} {back:?}");
        // Both have a height or neither, and the height returns exactly.
        assert_eq!(back.height, out.height.map(|_| fix.height));
        self.trips += 1;
        self.outside += u32::from(!image.in_bounds(fix.point));
        self.without_height += u32::from(out.height.is_none());
        self.furthest = self.furthest.max(returned);
        self.most = self.most.max(out.count);
    }
}

fn is_within_the_limits(point: Point) -> bool {
    point.latitude.abs() <= LIMITS[0] && point.longitude.abs() <= LIMITS[1]
}

/// An angle within its limit: anywhere, between the bounds of an axis, on one, up to some nd beside
/// it or as far as a correction may lead, or at the limit itself.
fn angle(random: &mut Random, [low, high]: [i128; 2], limit: i128) -> i128 {
    let bound = random.pick(&[low, high]);
    let found = match random.below(10) {
        0..4 => random.between(low as i64, high as i64).into(),
        4 => bound,
        5 => bound + i128::from(random.around_zero(6)),
        6 => bound + i128::from(random.around_zero(300)),
        7 => bound + i128::from(random.around_zero(20_000_000)),
        8 => i128::from(random.sign()) * limit,
        _ => random.around_zero(limit as i64).into(),
    };
    found.clamp(-limit, limit)
}

/// A point within question 7's limits, placed by the bounds of the corrections or of the heights; at
/// times the one that such a Bessel point goes back to.
fn any_point(random: &mut Random, image: &Image) -> Point {
    let grids = [image.correction_geometry(), image.height_geometry()];
    let by = grids[random.pick(&[0, 0, 0, 1])];
    let point = Point {
        latitude: angle(random, [by.south.into(), by.north()], LIMITS[0]),
        longitude: angle(random, [by.west.into(), by.east()], LIMITS[1]),
    };
    let [latitude, longitude] = image.corrections(point).expect("a passed check");
    let gone_back = Point {
        latitude: point.latitude + latitude,
        longitude: point.longitude + longitude,
    };
    if random.chance(40) && is_within_the_limits(gone_back) {
        gone_back
    } else {
        point
    }
}

/// Five evaluations are seen, and angles that return 1 nd off.
#[test]
fn every_fix_returns_over_every_image_of_kind_2_that_passes() {
    let mut seen = Seen::default();
    for_each_passing(Stream::KindTwo, 40_000, |random, image| {
        for _ in 0..if image.is_unbounded() { 40 } else { 0 } {
            let point = any_point(random, image);
            let height = height_within(random, 100_000_000);
            seen.add(image, Fix { point, height });
        }
    });
    println!("{seen:?}");
    assert!(seen.trips > 50_000, "{seen:?}");
    assert!(seen.outside > 20_000, "{seen:?}");
    assert!(seen.without_height > 20_000, "{seen:?}");
    assert_eq!((seen.furthest, seen.most), (1, 5));
}

/// Corrections over a grid that ends at the limits, as steep from its border on as the check allows
/// and as large in its middle as question 9 does, of these signs.
fn steepest(north_east: bool, signs: [i32; 2]) -> Vec<u8> {
    let (lines, spacing) = (81, 50_000_000);
    let extent = (lines - 1) * i64::from(spacing);
    let limits = LIMITS.map(|it| it as i64);
    let corner = limits.map(|limit| if north_east { limit - extent } else { -limit });
    let geometry = Geometry {
        south: corner[0],
        west: corner[1],
        latitude_spacing: spacing,
        longitude_spacing: spacing,
        rows: lines as u32,
        columns: lines as u32,
    };
    let from_border = |at: i128| at.min(i128::from(lines) - 1 - at);
    let places = geometry.node_places();
    let nodes: Vec<[i32; 2]> = places
        .map(|(row, column)| {
            let steps = from_border(row).min(from_border(column)) as i32;
            signs.map(|sign| sign * 250_000 * steps)
        })
        .collect();
    let trailer = TwoGridTrailer {
        kind: 2,
        ..TwoGridTrailer::over(geometry, geometry)
    };
    let heights = vec![[7]; nodes.len()];
    write_two_grids(&nodes, &heights, &trailer)
}

/// Along the diagonal from the corner of all latitudes and longitudes to the middle, nd by nd at
/// first, and further on in steps.
#[test]
fn every_fix_returns_from_the_limits_on_over_the_steepest_grid() {
    let mut seen = Seen::default();
    for north_east in [false, true] {
        let outward = if north_east { 1 } else { -1 };
        for signs in [[1, 1], [-1, 1], [1, -1], [-1, -1]] {
            let image = steepest(north_east, signs);
            assert_eq!(grid_check(&image).map(|it| it[0]), Ok(250_000));
            let image = open_image(&image).expect("checked");
            let near = (0..400).chain((0..2_000).map(|step| 999_983 * step));
            for inward in near {
                for [north, east] in [[inward, inward], [inward, 0], [inward, 3 * inward]] {
                    let point = Point {
                        latitude: outward * (LIMITS[0] - north),
                        longitude: outward * (LIMITS[1] - east),
                    };
                    seen.add(&image, Fix { point, height: 5 });
                }
            }
        }
    }
    println!("{seen:?}");
    assert_eq!((seen.furthest, seen.most), (1, 5));
}
