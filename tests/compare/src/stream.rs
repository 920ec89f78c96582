//! The streams of made-up calls.

use crate::{cases, Call, Format};
use reference::{Number, Trailer};
use std::fmt;

/// A stream of made-up calls: each call follows from the stream, a seed and an index alone.
#[derive(Clone, Copy, Debug, PartialEq, Eq)]
pub enum Stream {
    /// Images of edition 1, and notations.
    EditionOne,
    /// Images of edition 2 without a dense grid.
    EditionTwo,
    /// Images of edition 2 with a dense grid.
    KindOne,
    /// Images of edition 2 that answer fixes past the edge too.
    KindTwo,
    /// Images of edition 2 whose corrections stand in planes, and the conversions into such ones
    /// and back, of images of any kind.
    KindThree,
    /// Files of a format.
    Files(Format),
}

impl Stream {
    pub const ALL: [Stream; 7] = [
        Stream::EditionOne,
        Stream::EditionTwo,
        Stream::KindOne,
        Stream::KindTwo,
        Stream::KindThree,
        Stream::Files(Format::Vdatum),
        Stream::Files(Format::Ntv2),
    ];
    /// The streams over images.
    pub const IMAGES: [Stream; 5] = [
        Stream::EditionOne,
        Stream::EditionTwo,
        Stream::KindOne,
        Stream::KindTwo,
        Stream::KindThree,
    ];

    /// The stream over images of an edition.
    pub fn of_edition(edition: u32) -> Option<Stream> {
        match edition {
            1 => Some(Stream::EditionOne),
            2 => Some(Stream::EditionTwo),
            _ => None,
        }
    }

    /// The stream over images of a kind that has its own.
    pub fn of_kind(kind: u32) -> Option<Stream> {
        match kind {
            1 => Some(Stream::KindOne),
            2 => Some(Stream::KindTwo),
            3 => Some(Stream::KindThree),
            _ => None,
        }
    }

    /// The call of one case.
    pub fn call(self, seed: u64, index: u64) -> Call {
        match self {
            Stream::EditionOne => cases::call(seed, index),
            Stream::EditionTwo => cases::two_grids::call(seed, index),
            Stream::KindOne => cases::three_grids::call(seed, index),
            Stream::KindTwo => cases::unbounded::call(seed, index),
            Stream::KindThree => cases::planes::call(seed, index),
            Stream::Files(format) => cases::files::call(format, seed, index),
        }
    }

    /// Is the call one that a run of this stream counts? In the streams of edition 2 it must take
    /// an image that says edition 2, or convert an image into another arrangement.
    pub fn counts(self, call: &Call) -> bool {
        if let Call::Arrange(_) = call {
            return true;
        }
        match self {
            Stream::EditionOne | Stream::Files(_) => true,
            Stream::EditionTwo | Stream::KindOne | Stream::KindTwo | Stream::KindThree => {
                let trailer = call.image().and_then(Trailer::read);
                trailer.is_some_and(|it| it.edition == 2)
            }
        }
    }

    /// The numbers that a full run must meet among the calls that it counts: edition 1 knows no
    /// 15, the streams of edition 2 have no notations, 20 and 21 need a dense grid, and kind 2 has
    /// 22 and 100, and of those that are not put to it none. In the stream of kind 3 an image of
    /// kind 1 that is to be converted can get a 20.
    pub fn numbers(self) -> Vec<Number> {
        match self {
            Stream::EditionOne => (0..=14).collect(),
            Stream::EditionTwo => (0..=12).chain(14..=15).collect(),
            Stream::KindOne => (0..=12).chain(14..=15).chain(20..=21).collect(),
            Stream::KindTwo => (0..=7).chain([9, 11, 12, 14, 22, 100]).collect(),
            Stream::KindThree => (0..=12).chain([14, 15, 20]).collect(),
            Stream::Files(format) => {
                let refusals = format.layout().refusals;
                [0].into_iter().chain(refusals).collect()
            }
        }
    }
}

impl fmt::Display for Stream {
    fn fmt(&self, to: &mut fmt::Formatter) -> fmt::Result {
        match self {
            Stream::EditionOne => to.write_str("edition 1"),
            Stream::EditionTwo => to.write_str("edition 2"),
            Stream::KindOne => to.write_str("kind 1"),
            Stream::KindTwo => to.write_str("kind 2"),
            Stream::KindThree => to.write_str("kind 3"),
            Stream::Files(format) => write!(to, "files {format}"),
        }
    }
}
