//! Question 21: how border nodes differ from the parent's exact value in images that pass and in
//! those that do not, and the questions before it.

use super::STREAM;
use crate::made_up::{checked_images, place_of_node};
use crate::nested::grids_of;
use reference::{grid_check, open_image, Fraction, Grid, Number};
use std::collections::BTreeSet;

/// A border node's correction, and the parent's exact one there.
struct Beside {
    place: (&'static str, &'static str),
    value: usize,
    correction: i128,
    exact: Fraction,
}

impl Beside {
    /// The difference, as numerator and denominator.
    fn difference(&self) -> (i128, i128) {
        let (numerator, denominator) = self.exact.parts();
        (self.correction * denominator - numerator, denominator)
    }

    fn differs(&self) -> bool {
        let (difference, whole) = self.difference();
        difference.abs() > whole
    }

    fn sign(&self) -> i128 {
        self.difference().0.signum()
    }

    fn is_whole(&self) -> bool {
        let (numerator, denominator) = self.exact.parts();
        numerator % denominator == 0
    }
}

/// All border nodes with both corrections.
fn border(coarse: &Grid<2>, dense: &Grid<2>) -> Vec<Beside> {
    let geometry = dense.geometry;
    let places = geometry.node_places();
    let places = places.filter(|(row, column)| geometry.is_on_the_border(*row, *column));
    places
        .flat_map(|(row, column)| {
            let exact = coarse.exact_values(geometry.node_point(row, column));
            let exact = exact.expect("nodes that pass question 9");
            let node = dense.node(row, column);
            [0, 1].map(|value| Beside {
                place: place_of_node(&geometry, (row, column)),
                value,
                correction: node[value].into(),
                exact: exact[value],
            })
        })
        .collect()
}

/// Does something for the border of each checked image that gets a number, 0 for a pass.
fn for_each_border(wanted: Number, mut action: impl FnMut(&[Beside])) {
    for image in checked_images(STREAM).filter(|image| image.len() < 200_000) {
        let number = grid_check(&image).err().unwrap_or(0);
        let grids = open_image(&image).ok().and_then(|it| grids_of(&it));
        if let Some((coarse, dense)) = grids.filter(|_| number == wanted) {
            action(&border(&coarse, &dense));
        }
    }
}

#[test]
fn borders_pass_that_stand_1_nd_off_and_beside_a_fraction() {
    let mut met = BTreeSet::new();
    for_each_border(0, |border| {
        for it in border {
            let (difference, whole) = it.difference();
            let is_1_off = difference.abs() == whole;
            if is_1_off || !it.is_whole() {
                met.insert((it.value, it.sign(), is_1_off));
            }
        }
    });
    // Of either sign, exactly 1 nd off, or less far from a fraction.
    assert_eq!(met.len(), 2 * 2 * 2, "{met:?}");
}

#[test]
fn one_node_alone_differs_at_each_corner_and_side_by_either_sign() {
    let mut met = BTreeSet::new();
    for_each_border(21, |border| {
        let mut differing = border.iter().filter(|it| it.differs());
        if let (Some(only), None) = (differing.next(), differing.next()) {
            met.insert((only.place, only.value, only.sign()));
        }
    });
    assert_eq!(met.len(), 8 * 2 * 2, "{met:?}");
}

/// Nodes that differ from the rounded value by 1 nd at most, and from the exact one by more.
#[test]
fn borders_differ_that_rounding_would_let_pass() {
    let mut met = BTreeSet::new();
    for_each_border(21, |border| {
        let rounded = |it: &Beside| it.exact.plus_half_rounded_down();
        let near_rounded = |it: &Beside| (it.correction - rounded(it)).abs() <= 1;
        if border.iter().all(near_rounded) {
            let differing = border.iter().filter(|it| it.differs());
            met.extend(differing.map(|it| (it.value, it.sign())));
        }
    });
    assert_eq!(met.len(), 2 * 2, "{met:?}");
}

/// By a hundredth of an nd at most.
#[test]
fn borders_differ_by_just_more_than_1_nd() {
    let mut met = BTreeSet::new();
    for_each_border(21, |border| {
        let differing = border.iter().filter(|it| it.differs());
        for it in differing {
            let (difference, whole) = it.difference();
            if 100 * (difference.abs() - whole) <= whole {
                met.insert((it.value, it.sign()));
            }
        }
    });
    assert_eq!(met.len(), 2 * 2, "{met:?}");
}

/// Whether some border node differs where the check gives 12.
#[test]
fn slopes_are_refused_with_borders_that_agree_and_that_differ() {
    let mut met = BTreeSet::new();
    for_each_border(12, |border| {
        met.insert(border.iter().any(Beside::differs));
    });
    assert_eq!(met.len(), 2);
}
