//! The grids of edition 2's images: how they lie to each other, and what their heights are.

use super::{LAID_OUT_ALIKE, STREAM};
use crate::made_up::{
    for_each_point, furthest_apart, images, limits_of_checked, limits_of_nodes, rounding_case,
};
use compare::cases::values::NEAR;
use compare::{Stream, Way};
use reference::{open_image, Geometry, Image};
use std::collections::BTreeSet;

/// The correction and the height geometry of all images of a stream that open as edition 2.
fn geometries(stream: Stream) -> impl Iterator<Item = (Geometry, Geometry)> {
    images(stream).filter_map(|image| match open_image(&image) {
        Ok(Image::TwoGrids {
            corrections,
            heights,
            ..
        }) => Some((corrections.geometry, heights.geometry)),
        _ => None,
    })
}

/// South, west, north, east.
fn bounds(it: &Geometry) -> [i128; 4] {
    [it.south.into(), it.west.into(), it.north(), it.east()]
}

/// How the height grid lies to the correction grid.
fn relations(corrections: &Geometry, heights: &Geometry) -> Vec<&'static str> {
    let ([south, west, north, east], [low, left, high, right]) =
        (bounds(corrections), bounds(heights));
    let inside = south < low && high < north && west < left && right < east;
    let around = low < south && north < high && left < west && east < right;
    let apart = high < south || north < low || right < west || east < left;
    let latitude_differs = corrections.latitude_spacing != heights.latitude_spacing;
    let longitude_differs = corrections.longitude_spacing != heights.longitude_spacing;
    let same_bounds = bounds(corrections) == bounds(heights);
    let other_spacings = latitude_differs && longitude_differs;
    let events = [
        ("both spacings differ", other_spacings),
        ("the same", corrections == heights),
        ("the same bounds", same_bounds && other_spacings),
        ("smaller", inside),
        ("larger", around),
        ("elsewhere", apart),
        (
            "elsewhere by 1 nd",
            apart && (low == north + 1 || high == south - 1),
        ),
        ("overlapping", !apart && south < low && north < high),
        ("a bound in common", low == north || left == east),
        ("more nodes", heights.nodes() > corrections.nodes()),
        ("fewer nodes", heights.nodes() < corrections.nodes()),
    ];
    events
        .into_iter()
        .filter(|it| it.1)
        .map(|it| it.0)
        .collect()
}

#[test]
fn height_grids_lie_to_correction_grids_in_every_relation() {
    for stream in LAID_OUT_ALIKE {
        let mut met = BTreeSet::new();
        for (corrections, heights) in geometries(stream) {
            met.extend(relations(&corrections, &heights));
        }
        assert_eq!(met.len(), 11, "{stream} {met:?}");
    }
}

#[test]
fn every_case_of_the_rounding_occurs_for_heights_on_a_grid_of_their_own() {
    let mut cases = BTreeSet::new();
    for_each_point(STREAM, Way::Back, |image, point| {
        let is_own = image.correction_geometry() != image.height_geometry();
        match image.exact_height(point) {
            Ok(Some(exact)) if is_own => {
                cases.insert((rounding_case(exact), exact.parts().1 % 2));
            }
            _ => {}
        }
    });
    assert_eq!(cases.len(), 6 + 4, "{cases:?}");
}

/// Both sides of the limits within which the library weighs with one division, by the height
/// grid's own cells.
#[test]
fn heights_lie_near_each_other_and_far_apart() {
    let mut met = BTreeSet::new();
    for_each_point(STREAM, Way::Back, |image, point| {
        let Image::TwoGrids { heights, .. } = image else {
            return;
        };
        if image.height(point).is_err() {
            return;
        }
        let (row, column) = heights.geometry.places(point);
        let corners = heights.corners(row.cell, column.cell).concat().concat();
        let beyond = furthest_apart(corners.into_iter()) - NEAR;
        let (p, q) = heights.geometry.spacings();
        met.insert((beyond.clamp(-1, 2), p * q <= 1 << 48));
    });
    assert_eq!(met.len(), 4 * 2, "{met:?}");
}

#[test]
fn checked_height_grids_reach_the_limits_of_the_geometry_and_pass_with_steps() {
    for stream in LAID_OUT_ALIKE {
        let met = limits_of_checked(stream, |image| *image.height_geometry());
        assert_eq!(met.len(), 10, "{stream} {met:?}");
    }
}

#[test]
fn nodes_stand_at_and_past_each_limit_in_each_grid() {
    for stream in LAID_OUT_ALIKE {
        let mut met = BTreeSet::new();
        for image in images(stream).filter(|image| image.len() < 2_000) {
            let Ok(Image::TwoGrids {
                corrections,
                heights,
                ..
            }) = open_image(&image)
            else {
                continue;
            };
            let of = |grid, limits: Vec<_>| limits.into_iter().map(move |it| (grid, it));
            met.extend(of("corrections", limits_of_nodes(&corrections)));
            met.extend(of("heights", limits_of_nodes(&heights)));
        }
        assert_eq!(met.len(), 3 * 4, "{stream} {met:?}");
    }
}
