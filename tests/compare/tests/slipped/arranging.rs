//! The conversions into another arrangement with a slip. Without one they move the bytes of each
//! correction, and read no value.

use super::unbounded::with_kind;
use super::PlanesSlip;
use compare::{Arranged, Arranging, Event};
use reference::{grid_check, Arrangement, Number, TwoGridTrailer};

impl PlanesSlip {
    pub fn arrange(self, arrangement: Arrangement, image: &mut [u8], buffer: &mut [u8]) -> Number {
        let given = self.given(arrangement, image, buffer.len());
        match self {
            PlanesSlip::BufferCleared => buffer.fill(0),
            PlanesSlip::ImageWritten => image.iter_mut().take(1).for_each(|byte| *byte ^= 1),
            _ => {}
        }
        let number = self.number(&given);
        if number == 14 && self == PlanesSlip::WrittenBeforeFourteen {
            buffer
                .iter_mut()
                .take(1)
                .for_each(|byte| *byte = given.image[0]);
        }
        if number != 0 {
            return number;
        }
        if self == PlanesSlip::KindWrittenInTheImage {
            let kind = image.len() - 8;
            image[kind] = arrangement.kind() as u8;
        }
        self.write(&given, buffer);
        0
    }

    /// Image and buffer as the slip lets them look.
    fn given(self, arrangement: Arrangement, image: &[u8], buffer_length: usize) -> Arranging {
        let right = arrangement.other().kind();
        let image = match self {
            PlanesSlip::KindTaken(kind) => with_kind(image, kind, right),
            PlanesSlip::OwnKindTaken => with_kind(image, arrangement.kind(), right),
            _ => image.to_vec(),
        };
        let mut given = Arranging {
            arrangement,
            image,
            buffer_length,
            fixes: Vec::new(),
        };
        let whole = given.image.len();
        let exact = given.length_from_the_first_node().unwrap_or(whole);
        let is_taken = match self {
            PlanesSlip::LongerBufferTaken => buffer_length == exact + 1,
            PlanesSlip::ShorterBufferTaken => buffer_length + 1 == exact,
            PlanesSlip::BufferOfTheWholeImageTaken => buffer_length == whole,
            PlanesSlip::LargeBufferTaken => buffer_length > exact,
            _ => false,
        };
        if is_taken {
            given.buffer_length = exact;
        }
        if self == PlanesSlip::BytesBeforeCounted && exact < whole {
            given.buffer_length = if buffer_length == whole { exact } else { whole };
        }
        given
    }

    /// The number of a conversion, 0 for none.
    fn number(self, given: &Arranging) -> Number {
        let event = Arranged::of(given).event;
        let buffer_fits = Some(given.buffer_length) == given.length_from_the_first_node();
        match (self, event) {
            (PlanesSlip::KindFirst, Event::Image { right_kind, .. })
                if !right_kind && given.image.len() >= 80 =>
            {
                2
            }
            (PlanesSlip::TwentyNotAsked, Event::Image { number: 20, .. }) => 2,
            (PlanesSlip::BufferBeforeTheKind, Event::EditionOne { .. } | Event::Kind { .. })
            | (PlanesSlip::BufferFirst, _)
                if !buffer_fits =>
            {
                14
            }
            (PlanesSlip::NineAsked, Event::Converted { .. })
                if grid_check(&given.image) == Err(9) =>
            {
                9
            }
            (PlanesSlip::CheckAsked, Event::Converted { .. }) => {
                grid_check(&given.image).err().unwrap_or(0)
            }
            _ => event.number(),
        }
    }

    /// Writes the converted image, as much of it as the buffer has room for.
    fn write(self, given: &Arranging, buffer: &mut [u8]) {
        let before = given.image.len() - given.buffer_length;
        let mut bytes = self.converted(given, before);
        if self == PlanesSlip::BufferOfTheWholeImageTaken && buffer.len() > bytes.len() {
            bytes = [&given.image[..before], &bytes].concat();
        }
        let trailer = TwoGridTrailer::read(&given.image).expect("an image of edition 2");
        let heights = bytes.len() - trailer.height_back as usize;
        let end = bytes.len() - 80;
        let unwritten = match self {
            PlanesSlip::HeightsUnwritten => heights..end,
            PlanesSlip::TrailerUnwritten => end..bytes.len(),
            _ => 0..0,
        };
        for (place, (to, byte)) in buffer.iter_mut().zip(bytes).enumerate() {
            if !unwritten.contains(&place) {
                *to = byte;
            }
        }
    }

    /// The image from its first node on, converted.
    fn converted(self, given: &Arranging, before: usize) -> Vec<u8> {
        let image = match self {
            PlanesSlip::FromTheFirstByte => &given.image[..given.buffer_length],
            _ => &given.image[before..],
        };
        let trailer = TwoGridTrailer::read(&given.image).expect("an image of edition 2");
        let mut bytes = [&image[..image.len() - 80], &trailer.write()].concat();
        let moves = self.moves(given.arrangement, &trailer);
        for [from, to] in moves {
            let mut value: [u8; 4] = std::array::from_fn(|byte| image[4 * from + byte]);
            if self == PlanesSlip::BigEndianCorrections {
                value.reverse();
            }
            bytes[4 * to..4 * to + 4].copy_from_slice(&value);
        }
        self.change_trailer(given.arrangement, &trailer, &mut bytes);
        bytes
    }

    /// From where to where among the values each correction is moved.
    fn moves(self, arrangement: Arrangement, trailer: &TwoGridTrailer) -> Vec<[usize; 2]> {
        let nodes = self.nodes_moved(trailer);
        let place = |arrangement, [node, value]: [usize; 2]| match arrangement {
            Arrangement::Nodes => 2 * node + value,
            Arrangement::Planes => nodes * value + node,
        };
        let corrections = (0..nodes).flat_map(|node| [[node, 0], [node, 1]]);
        let moves = corrections.map(|read| {
            let written = self.written_as(trailer, read);
            [
                place(arrangement.other(), read),
                place(arrangement, written),
            ]
        });
        let mut moves: Vec<[usize; 2]> = moves.collect();
        if self == PlanesSlip::LastLatitudeLeft {
            moves.remove(moves.len() - 2);
        }
        moves
    }

    /// The nodes whose two values are moved.
    fn nodes_moved(self, trailer: &TwoGridTrailer) -> usize {
        let [corrections, heights] =
            [trailer.corrections, trailer.heights].map(|it| it.nodes() as usize);
        match self {
            PlanesSlip::HeightsMoved => corrections + heights / 2,
            PlanesSlip::CorrectionsLeft => 0,
            _ => corrections,
        }
    }

    /// The node and the value for which those that are read are written.
    fn written_as(self, trailer: &TwoGridTrailer, [node, value]: [usize; 2]) -> [usize; 2] {
        let [rows, columns] =
            [trailer.corrections.rows, trailer.corrections.columns].map(|it| it as usize);
        match self {
            PlanesSlip::LongitudesWrittenFirst => [node, 1 - value],
            PlanesSlip::ColumnsWritten => [node % columns * rows + node / columns, value],
            _ => [node, value],
        }
    }

    /// Gives the trailer its new kind.
    fn change_trailer(self, arrangement: Arrangement, from: &TwoGridTrailer, bytes: &mut [u8]) {
        let mut trailer = *from;
        match self {
            PlanesSlip::KindLeft => {}
            PlanesSlip::KindInTheEdition => trailer.edition = arrangement.kind(),
            _ => trailer.kind = arrangement.kind(),
        }
        if self == PlanesSlip::BackToTheLongitudes {
            trailer.correction_back -= 4 * from.corrections.nodes() as u32;
        }
        let end = bytes.len() - 80;
        bytes[end..].copy_from_slice(&trailer.write());
    }
}
