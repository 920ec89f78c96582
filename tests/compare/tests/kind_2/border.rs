//! Question 22: which border nodes have corrections in images that pass and in those that do not,
//! and the questions before and after it.

use super::{unbounded_grids, STREAM};
use crate::made_up::{checked_images, number_of, place_of_node};
use reference::{grid_check, Grid, Number};
use std::collections::BTreeSet;

/// A correction other than zero on the border.
struct OnTheBorder {
    place: (&'static str, &'static str),
    value: usize,
    correction: i32,
}

fn on_the_border(corrections: &Grid<2>) -> Vec<OnTheBorder> {
    let geometry = corrections.geometry;
    let places = geometry.node_places();
    let places = places.filter(|(row, column)| geometry.is_on_the_border(*row, *column));
    let all = places.flat_map(|(row, column)| {
        let node = corrections.node(row, column);
        [0, 1].map(|value| OnTheBorder {
            place: place_of_node(&geometry, (row, column)),
            value,
            correction: node[value],
        })
    });
    all.filter(|it| it.correction != 0).collect()
}

/// Does something for both grids of each checked image of kind 2, with the check's number, 0 for a
/// pass, and the number of the same image of kind 0.
fn for_each_checked(mut action: impl FnMut(&Grid<2>, &Grid<1>, [Number; 2])) {
    for image in checked_images(STREAM).filter(|image| image.len() < 200_000) {
        if let Some((corrections, heights)) = unbounded_grids(&image) {
            let mut as_kind_0 = image.clone();
            as_kind_0[image.len() - 8] = 0;
            let numbers = [&image, &as_kind_0].map(|it| number_of(grid_check(it)));
            action(&corrections, &heights, numbers);
        }
    }
}

/// One correction of 1 nd, at each corner and side, each of the two, of either sign, while all
/// else would pass.
#[test]
fn one_border_node_alone_gives_22() {
    let mut met = BTreeSet::new();
    for_each_checked(|corrections, _, numbers| {
        if let ([only], [22, 0]) = (&on_the_border(corrections)[..], numbers) {
            if only.correction.abs() == 1 {
                met.insert((only.place, only.value, only.correction));
            }
        }
    });
    assert_eq!(met.len(), 8 * 2 * 2, "{met:?}");
}

/// In images that pass, right inside of each side, each correction, of either sign.
#[test]
fn nodes_beside_the_border_are_not_zero_in_images_that_pass() {
    let mut met = BTreeSet::new();
    for_each_checked(|corrections, _, [number, _]| {
        let geometry = corrections.geometry;
        let lines = [geometry.rows, geometry.columns].map(i128::from);
        if number != 0 || lines.into_iter().any(|it| it < 3) {
            return;
        }
        for (side, row, column) in [
            ("south", 1, lines[1] / 2),
            ("north", lines[0] - 2, lines[1] / 2),
            ("west", lines[0] / 2, 1),
            ("east", lines[0] / 2, lines[1] - 2),
        ] {
            let node = corrections.node(row, column);
            met.extend([0, 1].map(|value| (side, value, node[value].signum())));
        }
    });
    assert_eq!(met.len(), 4 * 2 * 3, "{met:?}");
}

/// The number, whether the border is zero, whether the nodes of each grid pass question 9, and the
/// number of the same image of kind 0.
#[test]
fn number_22_comes_up_beside_9_and_12() {
    let mut met = BTreeSet::new();
    for_each_checked(|corrections, heights, [number, as_kind_0]| {
        let is_zero = on_the_border(corrections).is_empty();
        let fit = (all_fit(corrections), all_fit(heights));
        met.insert((number, is_zero, fit, as_kind_0));
    });
    for wanted in [
        (0, true, (true, true), 0),
        (9, true, (false, true), 9),
        (9, true, (true, false), 9),
        (9, false, (false, true), 9),
        (9, false, (true, false), 9),
        (22, false, (true, true), 0),
        (22, false, (true, true), 12),
        (12, true, (true, true), 12),
    ] {
        assert!(met.contains(&wanted), "{wanted:?} {met:?}");
    }
}

fn all_fit<const VALUES: usize>(grid: &Grid<VALUES>) -> bool {
    let mut places = grid.geometry.node_places();
    places.all(|(row, column)| grid.node_fits(&grid.node(row, column)))
}

/// With two rows or two columns all nodes are on the border.
#[test]
fn grids_of_border_nodes_alone_pass_and_do_not() {
    let mut met = BTreeSet::new();
    for_each_checked(|corrections, _, [number, _]| {
        let geometry = corrections.geometry;
        met.insert((geometry.rows == 2, geometry.columns == 2, number));
    });
    for of_two in [(true, false), (false, true), (true, true)] {
        for number in [0, 22] {
            let wanted = (of_two.0, of_two.1, number);
            assert!(met.contains(&wanted), "{wanted:?} {met:?}");
        }
    }
}

/// 100 × (A × Q + B × P) is P × Q for a correction, and in another image just above it.
#[test]
fn slopes_from_the_border_are_as_steep_as_the_check_allows_and_steeper() {
    let mut met = BTreeSet::new();
    for image in checked_images(STREAM).filter(|image| image.len() < 200_000) {
        let Some((corrections, _)) = unbounded_grids(&image) else {
            continue;
        };
        let found = grid_check(&image);
        let (p, q) = corrections.geometry.spacings();
        if let Ok(steps) = found {
            for value in 0..2 {
                let [a, b] = [steps[2 * value], steps[2 * value + 1]];
                if 100 * (a * q + b * p) == p * q {
                    met.insert(("as steep", value));
                }
            }
        } else if found == Err(12) {
            met.insert(("steeper", 0));
        }
    }
    assert_eq!(met.len(), 3, "{met:?}");
}
