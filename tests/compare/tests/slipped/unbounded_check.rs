//! The grid check of an image of kind 2 with a slip, put together from the check of kind 0 and 22.

use super::images::with_trailer;
use super::{Side, UnboundedSlip};
use compare::{Converter, Reference};
use reference::{grid_check, open_image, Grid, Image, Number};

impl UnboundedSlip {
    /// The grid check.
    pub fn grid_check(self, image: &mut [u8], findings: &mut [i64; 6]) -> Number {
        let Ok(Image::TwoGrids {
            corrections,
            heights,
            unbounded: true,
            ..
        }) = open_image(image)
        else {
            return Reference.grid_check(image, findings);
        };
        let without_border = grid_check(&with_trailer(image, |trailer| trailer.kind = 0));
        let is_zero = self.border_is_zero(&corrections, &heights);
        let fits = corrections_fit(&corrections);
        match self.number(without_border.err(), is_zero, fits) {
            Some(number) => number,
            None => {
                *findings = without_border.expect("no number").map(|it| it as i64);
                0
            }
        }
    }

    /// The first number, by that of the check of kind 0, whether the border is zero, and whether
    /// the corrections pass question 9.
    fn number(self, others: Option<Number>, is_zero: bool, fits: bool) -> Option<Number> {
        let border = (!is_zero).then_some(22);
        let border_first = match self {
            UnboundedSlip::BorderBeforeNine => true,
            UnboundedSlip::BorderBeforeHeights => fits,
            UnboundedSlip::BorderAfterTwelve => false,
            _ => others != Some(9),
        };
        if border_first {
            border.or(others)
        } else {
            others.or(border)
        }
    }

    /// Is the border zero as far as it is asked?
    fn border_is_zero(self, corrections: &Grid<2>, heights: &Grid<1>) -> bool {
        let values = (0..2).filter(|it| self != UnboundedSlip::CorrectionNotAsked(*it));
        let values: Vec<usize> = values.collect();
        let largest = i32::from(self == UnboundedSlip::BorderWithin1);
        let passes = |value: i32| (-largest..=largest).contains(&value);
        let is_zero = |(row, column)| {
            let node = corrections.node(row, column);
            values.iter().all(|value| passes(node[*value]))
        };
        let mut asked = corrections.geometry.node_places();
        let corrections_pass = asked.all(|place| !self.asks(corrections, place) || is_zero(place));
        let mut height_border = heights.geometry.node_places();
        let heights_pass = self != UnboundedSlip::HeightBorderAsked
            || height_border.all(|(row, column)| {
                let on_the_border = heights.geometry.is_on_the_border(row, column);
                !on_the_border || heights.node(row, column) == [0]
            });
        corrections_pass && heights_pass
    }

    /// Is the node at a row and column asked?
    fn asks(self, corrections: &Grid<2>, place: (i128, i128)) -> bool {
        let sides = Side::of_node(&corrections.geometry, place);
        match self {
            UnboundedSlip::BorderNotAsked => false,
            UnboundedSlip::InnerNodesAsked => true,
            UnboundedSlip::CornersNotAsked => sides.len() == 1,
            UnboundedSlip::SideNotAsked(side) => !sides.is_empty() && sides != [side],
            _ => !sides.is_empty(),
        }
    }
}

fn corrections_fit(corrections: &Grid<2>) -> bool {
    let mut places = corrections.geometry.node_places();
    places.all(|(row, column)| corrections.node_fits(&corrections.node(row, column)))
}
