//! Demand 3 as it stands, for images of edition 1 and of edition 2's kinds 0 and 2.

use crate::trips::{distance, fix_of, for_each_passing, height_within, out_and_back, point_inside};
use compare::Stream;
use reference::{way_back, way_out, Fix, Image, Point};

/// Without a dense grid.
fn try_out_and_back(image: &Image, fix: Fix) {
    let (out, returned) = out_and_back(image, fix);
    assert!(returned <= 1);
    // "Every other Bessel point in the bounds that also goes back to within 1 nd of the fix in
    // both angles lies within 3 nd of the way out's answer in each angle."
    for latitude in -6..=6 {
        for longitude in -6..=6 {
            let other = Point {
                latitude: out.point.latitude + latitude,
                longitude: out.point.longitude + longitude,
            };
            let goes_back = way_back(
                image,
                Fix {
                    point: other,
                    ..fix
                },
            );
            let near = goes_back.is_ok_and(|back| distance(back.point, fix.point) <= 1);
            assert!(!near || distance(other, out.point) <= 3);
        }
    }
}

/// "Every Bessel point at least 20,000,000 nd inside all four bounds, with NAP height within
/// 99,000,000 units of zero".
fn try_back_and_out(image: &Image, bessel: Fix) {
    let back = way_back(image, bessel).expect("answered going back");
    let out = way_out(image, fix_of(back)).expect("taken out");
    assert!(distance(out.point, bessel.point) <= 2);
    let height = out.height.expect("a height inside the margins");
    assert!(height.abs_diff(bessel.height) <= 1);
}

/// Tries the promise on those of the stream's images that pass the check and are wanted, with
/// more than a thousand trips out and back, and as many back and out.
fn try_images_of(stream: Stream, wanted: impl Fn(&Image) -> bool) {
    let (mut outward, mut backward) = (0, 0);
    for_each_passing(stream, 40_000, |random, image| {
        if !wanted(image) {
            return;
        }
        for _ in 0..10 {
            if let Some(point) = point_inside(random, image, 10_000_000) {
                let height = height_within(random, 100_000_000);
                try_out_and_back(image, Fix { point, height });
                outward += 1;
            }
            if let Some(point) = point_inside(random, image, 20_000_000) {
                let height = height_within(random, 99_000_000);
                try_back_and_out(image, Fix { point, height });
                backward += 1;
            }
        }
    });
    assert!(outward > 1_000, "{outward}");
    assert!(backward > 1_000, "{backward}");
}

#[test]
fn every_grid_that_passes_the_check_keeps_the_return_promise() {
    try_images_of(Stream::EditionOne, |_| true);
}

#[test]
fn every_image_of_edition_2_that_passes_keeps_it_inside_both_grids() {
    try_images_of(Stream::EditionTwo, |image| {
        image.correction_geometry() != image.height_geometry()
    });
}

/// Kind 2 has other Bessel points outside of the bounds too.
#[test]
fn every_image_of_kind_2_that_passes_keeps_it_inside_both_grids() {
    try_images_of(Stream::KindTwo, |image| image.is_unbounded());
}
