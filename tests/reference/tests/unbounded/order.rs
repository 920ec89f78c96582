//! The questions that are still put under kind 2, 7, 9, 11 and 14, and their order.

use crate::answers::convert;
use crate::common::{fix_at, point_at, SOUTH, WEST};
use crate::images::{image_of, small_image, tent, without_height, CORRECTIONS, HEIGHTS};
use reference::{list_back, list_out, open_image, way_back, way_out, Number, TwoGridTrailer};

const UNFIT_CORRECTION: i32 = -10_000_001;
const UNFIT_HEIGHT: i32 = 1_000_001;

/// Offsets on both grids, on the corrections' alone, on the heights' alone, and on neither.
const ON_BOTH: (i64, i64) = (500, 500);
const ON_CORRECTIONS: (i64, i64) = (2_500, 500);
const ON_HEIGHTS: (i64, i64) = (-200, 500);
const ON_NEITHER: (i64, i64) = (-200, 50);

/// The numbers going out and back of a fix at the offsets.
fn numbers(image: &[u8], (latitude, longitude): (i64, i64)) -> [Option<Number>; 2] {
    let fix = fix_at(latitude, longitude, 0);
    [
        convert(way_out, image, fix).err(),
        convert(way_back, image, fix).err(),
    ]
}

#[test]
fn question_7_is_put_first_wherever_the_fix_is() {
    let image = image_of(|_, _| [UNFIT_CORRECTION, 0], |_, _| [UNFIT_HEIGHT]);
    for (latitude, longitude) in [ON_BOTH, ON_CORRECTIONS, ON_HEIGHTS, ON_NEITHER] {
        let fix = |height| fix_at(latitude, longitude, height);
        for sign in [-1, 1] {
            let out = convert(way_out, &image, fix(sign * 100_000_001));
            assert_eq!(out, Err(7));
            let back = convert(way_back, &image, fix(sign * 110_000_001));
            assert_eq!(back, Err(7));
        }
    }
    let too_far = [
        (38_000_000_001, 0),
        (-142_000_000_001, 0),
        (0, 175_000_000_001),
        (0, -185_000_000_001),
    ];
    for offsets in too_far {
        assert_eq!(numbers(&image, offsets), [Some(7); 2]);
    }
}

/// "No cell is used" outside: neither the nearest cell nor any other is asked.
#[test]
fn question_9_is_put_to_the_correction_cell_in_the_bounds_alone() {
    let image = image_of(|_, _| [0, UNFIT_CORRECTION], |_, _| [0]);
    assert_eq!(numbers(&image, ON_BOTH), [Some(9); 2]);
    assert_eq!(numbers(&image, ON_CORRECTIONS), [Some(9); 2]);
    assert_eq!(numbers(&image, ON_HEIGHTS), [None; 2]);
    assert_eq!(numbers(&image, ON_NEITHER), [None; 2]);
    for (on, beside) in [(0, -1), (4_000, 4_001)] {
        assert_eq!(numbers(&image, (on, 500)), [Some(9); 2]);
        assert_eq!(numbers(&image, (500, on)), [Some(9); 2]);
        assert_eq!(numbers(&image, (beside, 500)), [None; 2]);
        assert_eq!(numbers(&image, (500, beside)), [None; 2]);
    }
}

#[test]
fn question_9_is_put_to_the_height_cell_on_the_height_grid_alone() {
    let image = image_of(|_, _| [0, 0], |_, _| [UNFIT_HEIGHT]);
    assert_eq!(numbers(&image, ON_BOTH), [Some(9); 2]);
    assert_eq!(numbers(&image, ON_CORRECTIONS), [None; 2]);
    assert_eq!(numbers(&image, ON_HEIGHTS), [Some(9); 2]);
    assert_eq!(numbers(&image, ON_NEITHER), [None; 2]);
    for (on, beside) in [(-400, -401), (1_700, 1_701)] {
        assert_eq!(numbers(&image, (on, 500)), [Some(9); 2]);
        assert_eq!(numbers(&image, (beside, 500)), [None; 2]);
    }
    for (on, beside) in [(100, 99), (1_900, 1_901)] {
        assert_eq!(numbers(&image, (500, on)), [Some(9); 2]);
        assert_eq!(numbers(&image, (500, beside)), [None; 2]);
    }
}

/// Corrections of 1,000 by row: from (1500, 500) on p1 is (0, 500), p2 (1500, 500), and so on.
#[test]
fn out_11_is_put_and_the_height_is_not_asked_then() {
    let image = image_of(|row, _| [1_000 * row, 0], |_, _| [UNFIT_HEIGHT]);
    assert_eq!(numbers(&image, (1_500, 500))[0], Some(11));
    assert_eq!(numbers(&image, (0, 500))[0], Some(9));
}

/// From p1 on too: p0 lies south of the corrections or off the heights, p1 does not or the other
/// way round.
#[test]
fn question_9_asks_each_point_of_the_way_by_itself() {
    let unfit_row = |unfit: i32| {
        image_of(
            move |row, _| {
                [
                    if row == unfit {
                        UNFIT_CORRECTION
                    } else {
                        1_200
                    },
                    0,
                ]
            },
            |_, _| [0],
        )
    };
    // p0 = 1,100 has row 1 and 2; p1 = −100 has none; p2 = 1,100; and so on.
    assert_eq!(numbers(&unfit_row(0), (1_100, 500))[0], Some(11));
    assert_eq!(numbers(&unfit_row(2), (1_100, 500))[0], Some(9));
    // p0 = 3,500 has rows 3 and 4, p1 = 2,300 has 2 and 3, p2 is the same one and is not asked.
    assert_eq!(numbers(&unfit_row(2), (3_500, 500))[0], Some(9));
    let image = unfit_row(1);
    let settled = convert(way_out, &image, fix_at(3_500, 500, 0));
    assert_eq!(settled, without_height(point_at(2_300, 500), 2));
}

#[test]
fn question_14_precedes_the_fixes_and_1_to_6_precede_it() {
    let fixes = [SOUTH, WEST, i64::MAX];
    for list in [list_out, list_back] {
        assert_eq!(list(&small_image(), &fixes, 4), Err(14));
        assert_eq!(list(&small_image(), &fixes[..2], 5), Err(14));
        assert_eq!(list(&small_image(), &fixes, 5), Ok(vec![0, 0, 0, 0, 7]));
        assert_eq!(list(&small_image()[1..], &fixes, 4), Err(6));
    }
}

/// A change of the trailer.
type Change = fn(&mut TwoGridTrailer);

/// Questions 1 to 6 as for kind 0: the small image with each field broken in turn.
#[test]
fn questions_1_to_6_are_those_of_kind_0() {
    let opened = |kind, change: Change| {
        let mut trailer = TwoGridTrailer {
            kind,
            ..TwoGridTrailer::over(CORRECTIONS, HEIGHTS)
        };
        change(&mut trailer);
        let nodes = small_image().len() - 80;
        open_image(&[&small_image()[..nodes], &trailer.write()].concat()).err()
    };
    let changes: [(Change, Option<Number>); 8] = [
        (|_| {}, None),
        (|it| it.corrections.rows = 1, Some(3)),
        (|it| it.heights.columns = 4_097, Some(3)),
        (|it| it.corrections.latitude_spacing = 0, Some(4)),
        (|it| it.heights.south = 90_000_000_000, Some(5)),
        (|it| it.correction_back += 36, Some(6)),
        (|it| it.height_back = 80, Some(6)),
        (|it| it.edition = 3, Some(2)),
    ];
    for (change, number) in changes {
        assert_eq!([0, 2].map(|kind| opened(kind, change)), [number; 2]);
    }
    assert_eq!(
        open_image(&small_image()[small_image().len() - 79..]).err(),
        Some(1)
    );
}

/// The 36 bytes of kind 1 have no meaning here.
#[test]
fn bytes_before_the_correction_nodes_have_no_meaning() {
    let image = image_of(tent, |_, _| [9]);
    let longer = [vec![255; 50], image.clone()].concat();
    for offsets in [ON_BOTH, ON_NEITHER] {
        let fix = fix_at(offsets.0, offsets.1, 5);
        for way in [way_out as crate::answers::Way, way_back] {
            assert_eq!(convert(way, &longer, fix), convert(way, &image, fix));
        }
    }
}
