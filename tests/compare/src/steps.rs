//! The way out, step by step, and where its points lie.

use reference::{Geometry, Image, Point};

/// The points p0, p1 and on to p5, whether or not the stop rule holds: as far as the image reaches
/// each and the corrections at the one before can be looked up.
pub fn points_on_the_way(image: &Image, given: Point) -> Vec<Point> {
    let mut here = given;
    let mut points = Vec::new();
    while points.len() < 6 && image.reaches(here) {
        points.push(here);
        let Ok([latitude, longitude]) = image.corrections(here) else {
            break;
        };
        here = Point {
            latitude: given.latitude - latitude,
            longitude: given.longitude - longitude,
        };
    }
    points
}

/// The same points, but only as far as the first one at which the stop rule holds.
pub fn points_until_the_stop(image: &Image, given: Point) -> Vec<Point> {
    let mut points = points_on_the_way(image, given);
    let distance = image.stop_distance();
    let stop = (1..points.len()).find(|n| stop_rule_holds(distance, points[n - 1], points[*n]));
    if let Some(n) = stop {
        points.truncate(n + 1);
    }
    points
}

/// Do the two angles each differ by at most the stop rule's distance?
pub fn stop_rule_holds(distance: i128, here: Point, next: Point) -> bool {
    let latitude = here.latitude - next.latitude;
    let longitude = here.longitude - next.longitude;
    latitude.abs() <= distance && longitude.abs() <= distance
}

/// The row and column of a point's cell.
pub fn cell_of(geometry: &Geometry, point: Point) -> (i64, i64) {
    let (latitude, longitude) = geometry.places(point);
    (latitude.cell as i64, longitude.cell as i64)
}

/// The point of a grid that is nearest to a point.
pub fn nearest_point(geometry: &Geometry, point: Point) -> Point {
    let (south, west) = (geometry.south.into(), geometry.west.into());
    Point {
        latitude: point.latitude.clamp(south, geometry.north()),
        longitude: point.longitude.clamp(west, geometry.east()),
    }
}
