//! The corrections and the stop rule of an image of kind 1 with a slip.

use super::dense_slip::DenseSlip;
use crate::nested::grids_of;
use compare::{cell_of, nearest_point, stop_rule_holds};
use reference::{Fraction, Grid, Image, Number, Point};

impl DenseSlip {
    /// The exact corrections at the last point of a way.
    pub fn exact_corrections(self, image: &Image, way: &[Point]) -> Result<[Fraction; 2], Number> {
        let here = way[way.len() - 1];
        let Some((coarse, dense)) = grids_of(image).filter(|_| image.in_bounds(here)) else {
            return image.exact_corrections(here);
        };
        let geometry = &dense.geometry;
        let is_dense = geometry.contains(here);
        match self {
            DenseSlip::ParentOn(side) if is_dense && side.is_past_by(geometry, here, 0) => {
                coarse.exact_values(here)
            }
            DenseSlip::DenseNodesBeside(side) if side.is_past_by(geometry, here, 1) => {
                dense.exact_values(nearest_point(geometry, here))
            }
            DenseSlip::LastDenseCellMissing if is_dense && here.latitude == geometry.north() => {
                Err(9)
            }
            DenseSlip::ParentAskedToo if is_dense => {
                coarse.exact_values(here)?;
                dense.exact_values(here)
            }
            DenseSlip::ParentAskedInstead if is_dense => {
                coarse.exact_values(here)?;
                lenient(dense).exact_values(here)
            }
            DenseSlip::DenseCorrectionUnasked(value) if is_dense => {
                let mut dense = dense;
                dense.limits[value] = UNLIMITED;
                dense.exact_values(here)
            }
            DenseSlip::GridByTheFix if !geometry.contains(way[0]) => coarse.exact_values(here),
            DenseSlip::CoarseCellKept if is_on_the_cell_before(&coarse, &dense, way) => {
                coarse.exact_values(here)
            }
            _ => image.exact_corrections(here),
        }
    }

    /// Does the stop rule hold?
    pub fn stops(self, image: &Image, here: Point, next: Point) -> bool {
        let dense = grids_of(image).map(|(_, dense)| dense.geometry);
        let distance = match self {
            DenseSlip::StopAt(distance) if dense.is_some() => distance,
            DenseSlip::StopAt3Without if dense.is_none() => 3,
            DenseSlip::StopByThePoint if !dense.is_some_and(|it| it.contains(next)) => 1,
            _ => image.stop_distance(),
        };
        let nearer = match self {
            DenseSlip::StopInOneAngle(0) => Point {
                latitude: here.latitude,
                ..next
            },
            DenseSlip::StopInOneAngle(_) => Point {
                longitude: here.longitude,
                ..next
            },
            _ => here,
        };
        stop_rule_holds(distance, here, next) && stop_rule_holds(1, here, nearer)
    }

    /// Is the next point of the way out from a fix in the bounds?
    pub fn is_next_in_bounds(self, image: &Image, fix: Point, next: Point) -> bool {
        let dense = grids_of(image).map(|(_, dense)| dense.geometry);
        let dense = dense.filter(|it| self == DenseSlip::DenseBoundsForTen && it.contains(fix));
        dense.map_or(image.reaches(next), |it| it.contains(next))
    }
}

/// A limit that lets every value pass.
const UNLIMITED: i128 = 1 << 31;

/// The grid without question 9.
fn lenient(mut grid: Grid<2>) -> Grid<2> {
    grid.limits = [UNLIMITED; 2];
    grid
}

/// Does the last point of a way lie on the coarse cell of the one before, which is not in the dense
/// bounds?
fn is_on_the_cell_before(coarse: &Grid<2>, dense: &Grid<2>, way: &[Point]) -> bool {
    let [.., before, here] = way else {
        return false;
    };
    let geometry = &coarse.geometry;
    let (row, column) = cell_of(geometry, *before);
    let corner = geometry.node_point(row.into(), column.into());
    let (p, q) = geometry.spacings();
    !dense.geometry.contains(*before)
        && (0..=p).contains(&(here.latitude - corner.latitude))
        && (0..=q).contains(&(here.longitude - corner.longitude))
}
