//! Figures on the small image of kind 3, worked out by hand, and what it shares with kind 0.

use crate::answers::{answer, convert};
use crate::common::{fix_at, SOUTH, WEST};
use crate::images::{in_nodes, in_planes, in_planes_of, sloping};
use reference::{
    grid_check, list_back, list_out, nodes_from_planes, planes_from_nodes, way_back, way_out,
};

#[test]
fn the_small_image_has_224_bytes() {
    assert_eq!(in_planes().len(), 12 * 4 + 12 * 4 + 12 * 4 + 80);
}

/// 100 + 4 × 1/2 + 2 × 1/4 is 102.5 and gives 103; −50 + 6 × 1/4 is −48.5 and gives −48;
/// 3 × 9/7 + 4 × 150/900 is 4.52.
#[test]
fn back_500_250_gives_603_202_height_430005() {
    let answered = convert(way_back, &in_planes(), fix_at(500, 250, 0));
    assert_eq!(answered, answer(603, 202, 430_005, 1));
}

/// The corrections at (603, 202) are 102.816 and −48.788, 103 and −49, so p1 is (500, 251); there they
/// are 102.502 and −48.494, 103 and −48, so p2 is (500, 250).
#[test]
fn out_603_202_gives_500_250() {
    let answered = convert(way_out, &in_planes(), fix_at(603, 202, 430_005));
    assert_eq!(answered, answer(500, 250, 0, 2));
}

/// The last values of both planes and of the heights: 108 − 4 × 3/10 + 2 × 1.9 is 110.6, −50 + 6 ×
/// 1.9 is −38.6, 3 × 3 + 4 × 2 is 17.
#[test]
fn back_1700_1900_gives_1811_1861_height_430017() {
    let answered = convert(way_back, &in_planes(), fix_at(1_700, 1_900, 0));
    assert_eq!(answered, answer(1_811, 1_861, 430_017, 1));
}

#[test]
fn questions_8_and_15_are_put_as_in_kind_0() {
    let back = |latitude, longitude| {
        let fix = fix_at(latitude, longitude, 0);
        convert(way_back, &in_planes(), fix)
    };
    assert_eq!(back(-1, 500), Err(8));
    assert_eq!(back(2_001, 500), Err(8));
    assert_eq!(back(500, 3_001), Err(8));
    assert_eq!(back(500, 3_000), Err(15));
    assert_eq!(back(1_701, 500), Err(15));
}

/// The steps of 4 and 2, 0 and 6, and 3 and 4 by row and by column.
#[test]
fn the_check_passes_with_4_2_0_6_3_4() {
    assert_eq!(grid_check(&in_planes()), Ok([4, 2, 0, 6, 3, 4]));
}

/// The first and the last value of each plane, and the cells that they belong to.
#[test]
fn an_unfit_value_at_either_end_of_a_plane_gives_9() {
    for (place, latitudes) in [((0, 0), [500, 1_500]), ((2, 2), [1_500, 500])] {
        for value in [0, 1] {
            let image = in_planes_of(|row, column| {
                let mut node = sloping(row, column);
                if (row, column) == place {
                    node[value] = 10_000_001;
                }
                node
            });
            assert_eq!(grid_check(&image), Err(9));
            let [unfit, fit] = latitudes.map(|latitude| {
                let longitude = 500 + 500 * i64::from(place.1);
                convert(way_back, &image, fix_at(latitude, longitude, 0))
            });
            assert_eq!((unfit.err(), fit.err()), (Some(9), None));
        }
    }
}

#[test]
fn steps_of_a_plane_that_are_too_large_give_12() {
    let check = |steps: [i32; 2]| {
        grid_check(&in_planes_of(|row, column| {
            [steps[0] * row, steps[1] * column]
        }))
    };
    assert_eq!(check([10, 10]), Ok([10, 0, 0, 10, 3, 4]));
    assert_eq!(check([11, 10]), Err(12));
    assert_eq!(check([10, 11]), Err(12));
}

/// Points on both grids and outside of each, either way.
#[test]
fn lists_and_checks_are_those_of_the_image_of_kind_0() {
    let (nodes, planes) = (in_nodes(0), in_planes());
    let from_nodes = planes_from_nodes(&nodes, nodes.len());
    let from_planes = nodes_from_planes(&planes, planes.len());
    assert_eq!(from_nodes, Ok(planes.clone()));
    assert_eq!(from_planes, Ok(nodes.clone()));
    let offsets = (-500..=3_500).step_by(250);
    let places = offsets.flat_map(|south| (-500..=3_500).step_by(250).map(move |it| (south, it)));
    let fixes: Vec<i64> = places
        .flat_map(|(latitude, longitude)| [SOUTH + latitude, WEST + longitude, 1_000])
        .collect();
    let answers = fixes.len() / 3 * 5;
    for list in [list_out, list_back] {
        let answered = list(&planes, &fixes, answers);
        assert_eq!(answered, list(&nodes, &fixes, answers));
        let accepted = answered.expect("answers");
        let accepted = accepted.chunks(5).filter(|answer| answer[4] == 0);
        assert!(accepted.count() > 20);
    }
    assert_eq!(grid_check(&planes), grid_check(&nodes));
}
