//! How a dense grid must lie in the coarse one, question 20, and what must stand on its border,
//! question 21.

use crate::{Fraction, Geometry, Grid, Point};

impl Geometry {
    /// "Dense bounds lie on coarse grid lines and coarse spacings are whole multiples of dense
    /// ones", and the dense grid does not reach "outside the coarse one".
    pub(crate) fn lies_aligned_in(&self, coarse: &Geometry) -> bool {
        let corners = [self.node_point(0, 0), self.north_eastern()];
        let (p, q) = self.spacings();
        let (coarse_p, coarse_q) = coarse.spacings();
        corners.iter().all(|corner| coarse.contains(*corner))
            && corners
                .iter()
                .all(|corner| coarse.has_lines_through(*corner))
            && is_multiple(coarse_p, p)
            && is_multiple(coarse_q, q)
    }

    /// The point at a row and column.
    pub fn node_point(&self, row: i128, column: i128) -> Point {
        let (p, q) = self.spacings();
        Point {
            latitude: i128::from(self.south) + row * p,
            longitude: i128::from(self.west) + column * q,
        }
    }

    fn north_eastern(&self) -> Point {
        Point {
            latitude: self.north(),
            longitude: self.east(),
        }
    }

    /// Do a grid line in latitude and one in longitude go through the point?
    fn has_lines_through(&self, point: Point) -> bool {
        let (p, q) = self.spacings();
        is_multiple(point.latitude - i128::from(self.south), p)
            && is_multiple(point.longitude - i128::from(self.west), q)
    }
}

fn is_multiple(number: i128, of: i128) -> bool {
    number % of == 0
}

/// "On the dense border each node differs from the parent's exact value by at most 1 nd", in both
/// corrections. All nodes have passed question 9.
pub(crate) fn border_agrees(dense: &Grid<2>, parent: &Grid<2>) -> bool {
    let geometry = &dense.geometry;
    geometry.border_places().all(|(row, column)| {
        let exact = parent.exact_values(geometry.node_point(row, column));
        let exact = exact.expect("nodes that pass question 9");
        differ_by_at_most_1(dense.node(row, column), exact)
    })
}

fn differ_by_at_most_1(node: [i32; 2], exact: [Fraction; 2]) -> bool {
    let mut corrections = node.into_iter().zip(exact);
    corrections.all(|(correction, exact)| {
        let negated = Fraction::new(-i128::from(correction), 1);
        exact.plus(negated).is_within(1)
    })
}
