//! Images of kind 3 as a converter with a slip opens and reads them.

use super::images::with_trailer;
use super::unbounded::with_kind;
use super::PlanesSlip;
use reference::{nodes_from_planes, open_image, DenseTrailer, Number, TwoGridTrailer};

/// The trailer of an image that opens as kind 3.
fn trailer_of(image: &[u8]) -> Option<TwoGridTrailer> {
    let trailer = TwoGridTrailer::read(image).filter(|it| it.edition == 2 && it.kind == 3)?;
    open_image(image).is_ok().then_some(trailer)
}

impl PlanesSlip {
    /// The image as the slip lets it look.
    pub fn image_seen(self, image: &[u8]) -> Vec<u8> {
        match self {
            PlanesSlip::KindThreeReadAsZero => with_kind(image, 3, 0),
            PlanesSlip::KindZeroReadAsThree => with_kind(image, 0, 3),
            PlanesSlip::KindFourTaken => with_kind(image, 4, 3),
            PlanesSlip::KindCutTo8Bits => with_trailer(image, |trailer| trailer.kind %= 256),
            _ => match trailer_of(image) {
                Some(trailer) => self.planes_seen(image, &trailer),
                None => image.to_vec(),
            },
        }
    }

    /// An image of kind 3 with its corrections as the slip reads them.
    fn planes_seen(self, image: &[u8], trailer: &TwoGridTrailer) -> Vec<u8> {
        if self == PlanesSlip::KindThreeUnbounded {
            let nodes = nodes_from_planes(image, trailer.correction_back as usize);
            return with_kind(&nodes.expect("an image of kind 3"), 0, 2);
        }
        let mut seen = image.to_vec();
        let first = image.len() - trailer.correction_back as usize;
        let nodes = trailer.corrections.nodes() as usize;
        for value in 0..2 {
            for node in 0..nodes {
                let read = first + 4 * self.place_read(trailer, value, node);
                let place = first + 4 * (nodes * value + node);
                seen[place..place + 4].copy_from_slice(&image[read..read + 4]);
            }
        }
        seen
    }

    /// How many values before it a correction of a node is read.
    fn place_read(self, trailer: &TwoGridTrailer, value: usize, node: usize) -> usize {
        let geometry = &trailer.corrections;
        let nodes = geometry.nodes() as usize;
        let (rows, columns) = (geometry.rows as usize, geometry.columns as usize);
        let (row, column) = (node / columns, node % columns);
        match self {
            PlanesSlip::LongitudesReadFirst => nodes * (1 - value) + node,
            PlanesSlip::LatitudesReadTwice => node,
            PlanesSlip::LongitudesByTheRows => {
                let all = trailer.correction_back as usize / 4;
                (rows * rows * value + node).min(all - 1)
            }
            PlanesSlip::ColumnsRead => nodes * value + column * rows + row,
            PlanesSlip::NorthernRowRead => nodes * value + (rows - 1 - row) * columns + column,
            _ => nodes * value + node,
        }
    }

    /// The number that the slip gives the image before any other question, if it gives one.
    pub fn number_seen(self, image: &[u8]) -> Option<Number> {
        let trailer = TwoGridTrailer::read(image).filter(|it| it.edition == 2 && it.kind == 3)?;
        match self {
            PlanesSlip::KindThreeUnknown => Some(2),
            PlanesSlip::ThirtySixBytesAsked => {
                let is_short = DenseTrailer::read(image, &trailer).is_none();
                is_short.then_some(1)
            }
            _ => None,
        }
    }
}
