//! Images with a dense grid: their trailers and grids, and how the dense grid can lie wrong in the
//! coarse one, each cause of 20.

use reference::{DenseTrailer, Geometry, Grid, Image, TwoGridTrailer};

/// The coarse and the dense grid of an image of kind 1.
pub fn grids_of<'a>(image: &Image<'a>) -> Option<(Grid<'a, 2>, Grid<'a, 2>)> {
    match image {
        Image::TwoGrids {
            corrections,
            dense: Some(dense),
            ..
        } => Some((*corrections, *dense)),
        _ => None,
    }
}

/// What can be wrong along an axis.
#[derive(Clone, Copy, Debug, PartialEq, Eq, PartialOrd, Ord)]
pub enum Fault {
    PastTheLowBound,
    PastTheHighBound,
    LowBoundOffTheLines,
    HighBoundOffTheLines,
    NoWholeMultiple,
}

/// The two axes: latitude first.
pub const AXES: [usize; 2] = [0, 1];

impl Fault {
    pub const ALL: [Fault; 5] = [
        Fault::PastTheLowBound,
        Fault::PastTheHighBound,
        Fault::LowBoundOffTheLines,
        Fault::HighBoundOffTheLines,
        Fault::NoWholeMultiple,
    ];
}

/// One axis of both grids: the dense bounds by their distance from the coarse southern or western
/// one, the spacings, and the coarse extent.
pub struct Along {
    pub low: i128,
    pub high: i128,
    dense_spacing: i128,
    pub spacing: i128,
    pub extent: i128,
}

impl Along {
    fn has(&self, fault: Fault) -> bool {
        match fault {
            Fault::PastTheLowBound => self.low < 0,
            Fault::PastTheHighBound => self.high > self.extent,
            Fault::LowBoundOffTheLines => self.low % self.spacing != 0,
            Fault::HighBoundOffTheLines => self.high % self.spacing != 0,
            Fault::NoWholeMultiple => self.spacing % self.dense_spacing != 0,
        }
    }
}

/// Both axes of two grids that passed questions 3 to 5.
pub fn axes(coarse: &Geometry, dense: &Geometry) -> [Along; 2] {
    let corner = [coarse.south, coarse.west].map(i128::from);
    let far = [coarse.north(), coarse.east()];
    let low = [dense.south, dense.west].map(i128::from);
    let high = [dense.north(), dense.east()];
    let (coarse, dense) = (coarse.spacings(), dense.spacings());
    let spacings = [coarse.0, coarse.1];
    let dense_spacings = [dense.0, dense.1];
    AXES.map(|axis| Along {
        low: low[axis] - corner[axis],
        high: high[axis] - corner[axis],
        dense_spacing: dense_spacings[axis],
        spacing: spacings[axis],
        extent: far[axis] - corner[axis],
    })
}

/// All that is wrong, with the axis.
pub fn faults(coarse: &Geometry, dense: &Geometry) -> Vec<(usize, Fault)> {
    let axes = axes(coarse, dense);
    let all = AXES
        .into_iter()
        .flat_map(|axis| Fault::ALL.map(|it| (axis, it)));
    all.filter(|(axis, fault)| axes[*axis].has(*fault))
        .collect()
}

/// The trailers of an image that says kind 1 and has both.
pub fn trailers(image: &[u8]) -> Option<(TwoGridTrailer, DenseTrailer)> {
    let trailer = TwoGridTrailer::read(image).filter(|it| it.edition == 2 && it.kind == 1)?;
    Some((trailer, DenseTrailer::read(image, &trailer)?))
}
