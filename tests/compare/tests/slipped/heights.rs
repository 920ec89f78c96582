//! The heights of an edition 2 image with a slip.

use super::TwoGridSlip;
use compare::nearest_point;
use reference::{Fraction, Geometry, Image, Number, Place, Point};

impl TwoGridSlip {
    /// The exact quasi-geoid height at a point, in an image of edition 2.
    pub fn exact_height(self, image: &Image, point: Point) -> Result<Option<Fraction>, Number> {
        let (corrections, heights) = (image.correction_geometry(), image.height_geometry());
        let is_on = heights.contains(point);
        match self {
            TwoGridSlip::FarHeightBoundsRefused if on_a_far_bound(heights, point) => Err(15),
            TwoGridSlip::HeightsByTheCorrectionLimit => with_the_correction_limit(image, point),
            TwoGridSlip::NearestHeight => image.exact_height(nearest_point(heights, point)),
            TwoGridSlip::HeightsInTheCorrectionCell if is_on => {
                image.exact_height(at_places(heights, corrections.places(point)))
            }
            TwoGridSlip::HeightsByTheCorrectionPlace if is_on => {
                let (row, column) = heights.places(point);
                let (latitude, longitude) = corrections.places(point);
                let with_part = |place: Place, part| Place { part, ..place };
                let places = (
                    with_part(row, latitude.part),
                    with_part(column, longitude.part),
                );
                image.exact_height(at_places(heights, places))
            }
            _ => image.exact_height(point),
        }
    }
}

fn on_a_far_bound(geometry: &Geometry, point: Point) -> bool {
    point.latitude == geometry.north() || point.longitude == geometry.east()
}

/// Question 9 with the corrections' limit in place of the heights'.
fn with_the_correction_limit(image: &Image, point: Point) -> Result<Option<Fraction>, Number> {
    match image {
        Image::TwoGrids {
            corrections,
            heights,
            ..
        } if heights.geometry.contains(point) => {
            let mut lenient = *heights;
            lenient.limits = [corrections.limits[0]];
            let [height] = lenient.exact_values(point)?;
            Ok(Some(height))
        }
        _ => image.exact_height(point),
    }
}

/// The point at these places of a grid, or the nearest one on it.
fn at_places(geometry: &Geometry, (latitude, longitude): (Place, Place)) -> Point {
    let (p, q) = geometry.spacings();
    let along =
        |low: i64, place: Place, spacing| i128::from(low) + place.cell * spacing + place.part;
    let point = Point {
        latitude: along(geometry.south, latitude, p),
        longitude: along(geometry.west, longitude, q),
    };
    nearest_point(geometry, point)
}
