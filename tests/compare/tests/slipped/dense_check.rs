//! The grid check of an image of kind 1 with a slip, put together from checks of kind 0.

use super::dense_slip::DenseSlip;
use super::Side;
use crate::nested::grids_of;
use compare::{Converter, Reference};
use reference::{
    grid_check, open_image, write_two_grids, Fraction, Geometry, Grid, Number, TwoGridTrailer,
};

/// What the check of kind 0 gives.
type Found = Result<[i128; 6], Number>;

impl DenseSlip {
    /// The grid check.
    pub fn grid_check(self, image: &mut [u8], findings: &mut [i64; 6]) -> Number {
        let opened = open_image(image).ok();
        let Some((coarse, dense)) = opened.and_then(|it| grids_of(&it)) else {
            return Reference.grid_check(image, findings);
        };
        let others = grid_check(&without_dense_grid(image));
        let alone = self.dense_alone(&dense, &coarse.geometry);
        if let Some(number) = self.number(&others, &alone, || self.differs(&coarse, &dense)) {
            return number;
        }
        let found = self.findings(others.expect("no number"), alone.unwrap_or_default());
        *findings = found.map(|it| it as i64);
        0
    }

    /// The check of the dense grid by itself.
    fn dense_alone(self, dense: &Grid<2>, coarse: &Geometry) -> Found {
        let mut geometry = dense.geometry;
        if self == DenseSlip::SlopeByTheCoarseSpacings {
            geometry.latitude_spacing = coarse.latitude_spacing;
            geometry.longitude_spacing = coarse.longitude_spacing;
            // Where the grid would reach too far so.
            (geometry.south, geometry.west) = (-90_000_000_000, -180_000_000_000);
        }
        let found = check_of_corrections(dense, geometry);
        match found {
            Err(9) if self == DenseSlip::NineNotAsked => Ok([0; 6]),
            Err(12) if self == DenseSlip::SlopeNotAsked => Ok([0; 6]),
            _ => found,
        }
    }

    /// The first number, by what the two checks and the border give.
    fn number(self, others: &Found, alone: &Found, differs: impl Fn() -> bool) -> Option<Number> {
        let (others, alone) = (others.err(), alone.err());
        let order = match self {
            DenseSlip::NineAfterTwelve => [others, alone],
            _ if alone == Some(9) => [alone, others],
            DenseSlip::TwentyOneBeforeTwelve if others != Some(9) && differs() => [Some(21), None],
            DenseSlip::TwentyOneBeforeTheDenseSlope if others.is_none() && differs() => {
                [Some(21), None]
            }
            _ => [others, alone],
        };
        let first = order.into_iter().flatten().next();
        first.or_else(|| differs().then_some(21))
    }

    /// Does a border node that is asked differ?
    fn differs(self, coarse: &Grid<2>, dense: &Grid<2>) -> bool {
        let geometry = &dense.geometry;
        let mut asked = geometry
            .node_places()
            .filter(|it| self.asks(coarse, dense, *it));
        asked.any(|(row, column)| {
            let exact = coarse.exact_values(geometry.node_point(row, column));
            let node = dense.node(row, column);
            let values = (0..2).filter(|it| self != DenseSlip::CorrectionNotAsked(*it));
            let exact = exact.expect("nodes that pass question 9");
            values
                .into_iter()
                .any(|value| !self.agrees(node[value].into(), exact[value]))
        })
    }

    /// Is the node at a row and column asked?
    fn asks(self, coarse: &Grid<2>, dense: &Grid<2>, (row, column): (i128, i128)) -> bool {
        let geometry = &dense.geometry;
        let sides = Side::of_node(geometry, (row, column));
        let is_corner = sides.len() == 2;
        let is_coarse_node = {
            let (latitude, longitude) = coarse.geometry.places(geometry.node_point(row, column));
            let (p, q) = coarse.geometry.spacings();
            [0, p].contains(&latitude.part) && [0, q].contains(&longitude.part)
        };
        let on_the_border = !sides.is_empty();
        match self {
            DenseSlip::TwentyOneNotAsked => false,
            DenseSlip::InnerNodesAsked => true,
            DenseSlip::CornersNotAsked => on_the_border && !is_corner,
            DenseSlip::CoarseNodesAlone => on_the_border && is_coarse_node,
            DenseSlip::SideNotAsked(side) => on_the_border && sides != [side],
            _ => on_the_border,
        }
    }

    /// Is the correction near enough to the parent's exact one?
    fn agrees(self, correction: i128, exact: Fraction) -> bool {
        let limit = match self {
            DenseSlip::BorderWithin(limit) => limit,
            _ => 1,
        };
        let exact = match self {
            DenseSlip::BorderBesideTheRoundedValue => {
                Fraction::new(exact.plus_half_rounded_down(), 1)
            }
            _ => exact,
        };
        exact.plus(Fraction::new(-correction, 1)).is_within(limit)
    }

    /// A and B, by those of the coarse grid with the heights and those of the dense grid.
    fn findings(self, coarse: [i128; 6], dense: [i128; 6]) -> [i128; 6] {
        std::array::from_fn(|field| match self {
            DenseSlip::DenseFindings if field < 4 => dense[field],
            DenseSlip::LargerFindings => coarse[field].max(dense[field]),
            _ => coarse[field],
        })
    }
}

/// The image as kind 0.
fn without_dense_grid(image: &[u8]) -> Vec<u8> {
    super::images::with_trailer(image, |trailer| trailer.kind = 0)
}

/// The check of an image of kind 0 with the dense nodes for corrections, over a geometry of as many
/// rows and columns, and heights of zero.
fn check_of_corrections(dense: &Grid<2>, geometry: Geometry) -> Found {
    let places = dense.geometry.node_places();
    let nodes: Vec<[i32; 2]> = places
        .map(|(row, column)| dense.node(row, column))
        .collect();
    let heights = Geometry {
        south: 0,
        west: 0,
        latitude_spacing: 1,
        longitude_spacing: 1,
        rows: 2,
        columns: 2,
    };
    let trailer = TwoGridTrailer::over(geometry, heights);
    grid_check(&write_two_grids(&nodes, &[[0]; 4], &trailer))
}
