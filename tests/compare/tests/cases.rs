//! The made-up calls hold what they are made up for: every number and count, every place at which
//! the way out can be refused, exact halves, points on the bounds, limits of the geometry.

mod edition_2;
mod files;
mod kind_1;
mod kind_2;
mod kind_3;
mod made_up;
mod nested;

use compare::cases::values::NEAR;
use compare::{cases, cell_of, points_on_the_way, Call, Coverage, Reference, Stream, Way};
use made_up::{calls, for_each_point, images, rounding_case, SEED};
use reference::{Axis, Image, Number, Point, Trailer};
use std::collections::BTreeSet;

const STREAM: Stream = Stream::EditionOne;

#[test]
fn every_number_count_and_cause_occurs() {
    for stream in Stream::ALL {
        let mut coverage = Coverage::of(stream);
        for call in calls(stream) {
            coverage.add(&call, &call.perform(&Reference, 0));
        }
        assert_eq!(coverage.missing(), Vec::<String>::new());
    }
}

#[test]
fn a_run_that_met_nothing_misses_every_number_count_and_cause() {
    let missing = Stream::ALL.map(|stream| Coverage::of(stream).missing().len());
    let of_kinds = [17 + 5, 14 + 5, 16 + 5 + 2 * 24];
    let of_files = [3 + 36, 3 + 144];
    let wanted = [&[15 + 5, 15 + 5], &of_kinds[..], &of_files].concat();
    assert_eq!(missing[..], wanted);
}

#[test]
fn the_streams_numbers_are_0_to_22_and_100_together() {
    let numbers: BTreeSet<Number> = Stream::ALL.into_iter().flat_map(Stream::numbers).collect();
    assert_eq!(numbers, (0..=22).chain([100]).collect());
}

#[test]
fn another_seed_gives_other_calls_and_the_same_seed_the_same() {
    for stream in Stream::ALL {
        assert_eq!(stream.call(SEED, 5), stream.call(SEED, 5));
        let differs = |index| stream.call(SEED, index) != stream.call(SEED + 1, index);
        assert!((0..10).all(differs));
    }
}

/// Document 02's note 3: each of its six cases, and those of them that an odd area has.
#[test]
fn every_case_of_the_rounding_occurs_for_each_value() {
    let mut cases = BTreeSet::new();
    for_each_point(STREAM, Way::Back, |image, point| {
        let corrections = image.exact_corrections(point).into_iter().flatten();
        let values = corrections.chain(image.exact_height(point).ok().flatten());
        for (value, exact) in values.enumerate() {
            let area = exact.parts().1;
            cases.insert((value, rounding_case(exact), area % 2));
        }
    });
    assert_eq!(cases.len(), 3 * (6 + 4), "{cases:?}");
}

/// The number that ends the way out, and at which pk: question 9 for the cell of pk, question 10
/// for pk itself.
fn end_of_the_way(image: &Image, given: Point) -> Option<(Number, usize)> {
    let points = points_on_the_way(image, given);
    let Some(last) = points.last() else {
        return Some((8, 0));
    };
    if image.corrections(*last).is_err() {
        return Some((9, points.len() - 1));
    }
    (points.len() < 6).then_some((10, points.len()))
}

#[test]
fn the_way_out_meets_an_unfit_cell_and_a_bound_at_every_step() {
    for stream in Stream::IMAGES {
        let mut ends = BTreeSet::new();
        for_each_point(stream, Way::Out, |image, point| {
            ends.extend(end_of_the_way(image, point));
        });
        assert!((0..=5).all(|k| ends.contains(&(9, k))), "{ends:?}");
        // Over images of kind 2 no point is refused by the bounds.
        let has_bounds = stream != Stream::KindTwo;
        assert!(
            !has_bounds || (1..=5).all(|k| ends.contains(&(10, k))),
            "{ends:?}"
        );
    }
}

#[test]
fn the_way_out_stays_in_its_cell_and_leaves_it() {
    let mut stays = BTreeSet::new();
    for_each_point(STREAM, Way::Out, |image, given| {
        let cell = |point: &Point| cell_of(image.correction_geometry(), *point);
        if let [given, first, ..] = points_on_the_way(image, given).as_slice() {
            stays.insert(cell(first) == cell(given));
        }
    });
    assert_eq!(stays.len(), 2, "{stays:?}");
}

/// The library weighs corners with one division where each lies at most NEAR from the south-west
/// one and the cell's area is at most 2^48. Both sides of both limits occur for each value.
#[test]
fn corners_lie_near_each_other_and_far_apart_for_each_value() {
    let mut met = BTreeSet::new();
    for_each_point(STREAM, Way::Back, |image, point| {
        let Image::OneGrid(grid) = image else {
            return;
        };
        if image.corrections(point).is_err() {
            return;
        }
        let (row, column) = grid.geometry.places(point);
        let corners = grid.corners(row.cell, column.cell).concat();
        let (p, q) = grid.geometry.spacings();
        for value in 0..3 {
            let beyond = made_up::furthest_apart(corners.iter().map(|it| it[value])) - NEAR;
            met.insert((value, beyond.clamp(-1, 2), p * q <= 1 << 48));
        }
        met.insert((3, 0, p * q == 1 << 48));
    });
    assert_eq!(met.len(), 3 * 4 * 2 + 2, "{met:?}");
}

#[test]
fn points_lie_on_and_beside_every_bound_and_corner() {
    let mut places = BTreeSet::new();
    for_each_point(STREAM, Way::Back, |image, point| {
        places.insert(made_up::place_by_bounds(image.correction_geometry(), point));
    });
    assert_eq!(places.len(), 16, "{places:?}");
}

#[test]
fn checked_grids_reach_the_limits_of_the_geometry_and_pass_with_steps() {
    let met = made_up::limits_of_checked(STREAM, |image| *image.correction_geometry());
    assert_eq!(met.len(), 10, "{met:?}");
}

#[test]
fn images_are_cut_to_every_length_of_note() {
    let lengths: BTreeSet<usize> = images(STREAM).map(|image| image.len()).collect();
    assert!([0, 1, 39, 40, 41].iter().all(|it| lengths.contains(it)));
}

#[test]
fn editions_are_0_to_2_and_more() {
    let trailers = images(STREAM).filter_map(|image| Trailer::read(&image));
    let editions: BTreeSet<u32> = trailers.map(|it| it.edition.min(3)).collect();
    assert_eq!(editions.len(), 4);
}

#[test]
fn every_letter_is_read_for_both_axes_in_a_full_run() {
    let mut letters = BTreeSet::new();
    for index in (0..compare::FULL_RUN).filter(|index| !cases::has_largest_grid(*index)) {
        if let Call::ReadNotation { axis, notation } = cases::call(SEED, index) {
            letters.insert((axis == Axis::Longitude, notation.letter));
        }
    }
    assert_eq!(letters.len(), 512);
}

/// Document 02's note 7: −1 nd, the only angle below zero whose written total is zero, and those
/// beside it; and zero to read, with either letter.
#[test]
fn angles_around_zero_are_written_and_zeros_are_read_for_both_axes() {
    let (mut written, mut read) = (BTreeSet::new(), BTreeSet::new());
    for call in calls(STREAM) {
        match call {
            Call::WriteNotation { axis, nd } if (-2..=2).contains(&nd) => {
                written.insert((axis == Axis::Longitude, nd));
            }
            Call::ReadNotation { axis, notation } => {
                if reference::read_notation(axis, notation) == Ok(0) {
                    read.insert(notation.letter);
                }
            }
            _ => {}
        }
    }
    assert_eq!(written.len(), 2 * 5, "{written:?}");
    assert_eq!(read, BTreeSet::from(*b"NSEW"));
}
