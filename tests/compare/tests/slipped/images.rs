//! Images of edition 2 as a converter with a slip opens and checks them.

use super::TwoGridSlip;
use compare::{Converter, Reference};
use reference::{Geometry, Number, Trailer, TwoGridTrailer};

/// The bytes of edition 2's trailer.
const TRAILER: usize = 80;

/// The edition 2 trailer of an image that says this edition and is long enough.
fn trailer_of(image: &[u8]) -> Option<TwoGridTrailer> {
    TwoGridTrailer::read(image).filter(|it| it.edition == 2)
}

/// The image with a changed trailer.
pub fn with_trailer(image: &[u8], change: impl Fn(&mut TwoGridTrailer)) -> Vec<u8> {
    let Some(mut trailer) = trailer_of(image) else {
        return image.to_vec();
    };
    change(&mut trailer);
    [&image[..image.len() - TRAILER], &trailer.write()].concat()
}

impl TwoGridSlip {
    /// The image as the slip lets it look.
    pub fn image_seen(self, image: &[u8]) -> Vec<u8> {
        match self {
            TwoGridSlip::KindNotAsked => with_trailer(image, |trailer| trailer.kind = 0),
            TwoGridSlip::HeightBackNotAsked => with_trailer(image, |trailer| {
                trailer.height_back = trailer.right_height_back() as u32;
            }),
            TwoGridSlip::EightyBytesNotAsked if (40..TRAILER).contains(&image.len()) => {
                [&vec![0; TRAILER - image.len()], image].concat()
            }
            _ => image.to_vec(),
        }
    }

    /// The number that the slip gives the image before any other question, if it gives one.
    pub fn number_seen(self, image: &[u8]) -> Option<Number> {
        match self {
            TwoGridSlip::EightyBytesBeforeTheEdition => {
                let is_first = Trailer::read(image).is_some_and(|it| it.edition == 1);
                (!is_first && image.len() < TRAILER).then_some(1)
            }
            TwoGridSlip::OneGridAfterTheOther => {
                let trailer = trailer_of(image).filter(|it| it.kind == 0)?;
                let numbers = [trailer.corrections, trailer.heights].map(question_of);
                numbers.into_iter().flatten().next()
            }
            _ => None,
        }
    }

    /// The grid check.
    pub fn grid_check(self, image: &mut [u8], findings: &mut [i64; 6]) -> Number {
        let mut other = match self {
            TwoGridSlip::SlopeByTheCorrectionSpacings => with_trailer(image, |trailer| {
                trailer.heights.latitude_spacing = trailer.corrections.latitude_spacing;
                trailer.heights.longitude_spacing = trailer.corrections.longitude_spacing;
            }),
            TwoGridSlip::SlopeBeforeHeights => without_heights(image),
            _ => return Reference.grid_check(image, findings),
        };
        let mut other_findings = [0; 6];
        let other_number = Reference.grid_check(&mut other, &mut other_findings);
        let number = Reference.grid_check(image, findings);
        match (number, other_number) {
            (0, 12) if self == TwoGridSlip::SlopeByTheCorrectionSpacings => 12,
            (9, 12) => 12,
            (12, 0) if self == TwoGridSlip::SlopeByTheCorrectionSpacings => {
                *findings = other_findings;
                0
            }
            _ => number,
        }
    }
}

/// The first of questions 3 to 5 whose answer is no.
pub fn question_of(geometry: Geometry) -> Option<Number> {
    let answers = [
        (3, geometry.counts_fit()),
        (4, geometry.spacings_fit()),
        (5, geometry.bounds_fit()),
    ];
    answers.into_iter().find(|(_, yes)| !yes).map(|it| it.0)
}

/// The image with heights of zero.
fn without_heights(image: &[u8]) -> Vec<u8> {
    let mut bytes = image.to_vec();
    let length = bytes.len();
    if let Some(trailer) = trailer_of(image) {
        let back = (trailer.height_back as usize).clamp(TRAILER, length);
        bytes[length - back..length - TRAILER].fill(0);
    }
    bytes
}
