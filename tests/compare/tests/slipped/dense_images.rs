//! Images of kind 1 as a converter with a slip opens them.

use super::dense_slip::DenseSlip;
use super::images::{question_of, with_trailer};
use crate::nested::{faults, trailers};
use reference::{open_image, DenseTrailer, Number, TwoGridTrailer};

/// The image as kind 0.
fn as_kind_0(image: &[u8]) -> Vec<u8> {
    with_trailer(image, |trailer| trailer.kind = 0)
}

/// The image with a changed back to the dense nodes, by the right one and the length.
fn with_dense_back(image: &[u8], changed: impl Fn(u32, u32, u32) -> u32) -> Vec<u8> {
    let mut bytes = image.to_vec();
    if let Some((trailer, mut dense)) = trailers(image) {
        let end = image.len() - trailer.correction_back as usize;
        let right = dense.right_back(&trailer) as u32;
        dense.back = changed(dense.back, right, image.len() as u32);
        bytes[end - 36..end].copy_from_slice(&dense.write());
    }
    bytes
}

/// A back that counts from elsewhere: right where it has this value, else as it stands, but wrong
/// where it would be right.
fn counted_otherwise(back: u32, right: u32, otherwise: u32) -> u32 {
    match back {
        _ if back == otherwise => right,
        _ if back == right => 0,
        _ => back,
    }
}

impl DenseSlip {
    /// The image as the slip lets it look.
    pub fn image_seen(self, image: &[u8]) -> Vec<u8> {
        match self {
            DenseSlip::KindTwoTaken => with_trailer(image, |trailer| {
                trailer.kind -= u32::from(trailer.kind == 2);
            }),
            DenseSlip::DenseGridUnread if trailers(image).is_some() => as_kind_0(image),
            DenseSlip::DenseBackNotAsked => with_dense_back(image, |_, right, _| right),
            DenseSlip::DenseBackFromTheCorrections => with_dense_back(image, |back, right, _| {
                let corrections = TwoGridTrailer::read(image).map(|it| it.correction_back);
                counted_otherwise(back, right, right.wrapping_sub(corrections.unwrap_or(0)))
            }),
            DenseSlip::DenseBackFromTheBeginning => {
                with_dense_back(image, |back, right, length| {
                    counted_otherwise(back, right, length.wrapping_sub(right))
                })
            }
            DenseSlip::DenseBackWithoutThe36 => with_dense_back(image, |back, right, _| {
                counted_otherwise(back, right, right.wrapping_sub(36))
            }),
            DenseSlip::DenseNodesFromTheBeginning => with_nodes_from_the_beginning(image),
            DenseSlip::TwentyNotAsked if lies_wrong(image) => as_kind_0(image),
            DenseSlip::FaultNotAsked(axis, fault) if lies_wrong(image) => {
                let (trailer, dense) = trailers(image).expect("an image of kind 1");
                match faults(&trailer.corrections, &dense.geometry)[..] {
                    [only] if only == (axis, fault) => as_kind_0(image),
                    _ => image.to_vec(),
                }
            }
            _ => image.to_vec(),
        }
    }

    /// The number that the slip gives the image before any other question, if it gives one.
    pub fn number_seen(self, image: &[u8]) -> Option<Number> {
        let trailer = TwoGridTrailer::read(image).filter(|it| it.edition == 2)?;
        let is_short = DenseTrailer::read(image, &trailer).is_none();
        if self == DenseSlip::ThirtySixBytesBeforeTheKind {
            return (is_short && trailer.kind > 0).then_some(1);
        }
        if trailer.kind != 1 {
            return None;
        }
        match self {
            DenseSlip::KindOneUnknown => Some(2),
            DenseSlip::ThirtySixBytesNotAsked if is_short => Some(as_kind_0_or_6(image)),
            DenseSlip::ThirtySixBytesCutTo32Bits if trailer.correction_back > u32::MAX - 36 => {
                Some(as_kind_0_or_6(image))
            }
            DenseSlip::ThirtySixBytesByTheRightBack => by_the_right_back(image, &trailer),
            DenseSlip::DenseGridAfterTheOthers if !is_short => open_image(&as_kind_0(image)).err(),
            _ => self.number_by_the_dense_trailer(image),
        }
    }

    /// The same of an image with 36 bytes.
    fn number_by_the_dense_trailer(self, image: &[u8]) -> Option<Number> {
        let (trailer, dense) = trailers(image)?;
        let first_of_dense = question_of(dense.geometry);
        let first_of_others = [trailer.corrections, trailer.heights].map(question_of);
        let is_first = |number| first_of_others.into_iter().flatten().all(|it| it > number);
        match self {
            DenseSlip::DenseGridBeforeTheOthers => first_of_dense,
            DenseSlip::QuestionNotPut(number) if first_of_dense == Some(number) => {
                Some(if is_first(number) { 6 } else { number })
            }
            DenseSlip::TwentyBeforeSix if first_of_dense.is_none() && is_first(6) => {
                let found = faults(&trailer.corrections, &dense.geometry);
                (!found.is_empty()).then_some(20)
            }
            _ => None,
        }
    }
}

/// The number of the image as kind 0, or else 6.
fn as_kind_0_or_6(image: &[u8]) -> Number {
    open_image(&as_kind_0(image)).err().unwrap_or(6)
}

/// The image with its first bytes in place of its dense nodes too, if it is one that opens.
fn with_nodes_from_the_beginning(image: &[u8]) -> Vec<u8> {
    let mut bytes = image.to_vec();
    if let Some((_, dense)) = trailers(image).filter(|_| open_image(image).is_ok()) {
        let nodes = 8 * dense.geometry.nodes() as usize;
        bytes.copy_within(..nodes, image.len() - dense.back as usize);
    }
    bytes
}

/// Does the image get 20?
pub fn lies_wrong(image: &[u8]) -> bool {
    open_image(image).err() == Some(20)
}

/// The number of an image with a wrong back to its correction nodes, whose 36 bytes are looked for
/// where they should be.
fn by_the_right_back(image: &[u8], trailer: &TwoGridTrailer) -> Option<Number> {
    let right = TwoGridTrailer {
        kind: 1,
        ..TwoGridTrailer::over(trailer.corrections, trailer.heights)
    };
    if trailer.correction_back == right.correction_back {
        return None;
    }
    let Some(dense) = DenseTrailer::read(image, &right) else {
        return Some(1);
    };
    let geometries = [trailer.corrections, trailer.heights, dense.geometry];
    let first = geometries.into_iter().filter_map(question_of).min();
    Some(first.unwrap_or(6))
}
