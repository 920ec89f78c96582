//! The streams over images are as they were before later images came: the same calls, and the same
//! answers of the reference to all that take an image, unless it is one of those that came later.

use compare::{Call, Outcome, Reference, Stream};
use reference::{Axis, Trailer, TwoGridTrailer};

const CASES: u64 = 20_000;

/// A digest of bytes (FNV-1a).
struct Digest(u64);

impl Digest {
    fn new() -> Digest {
        Digest(0xCBF2_9CE4_8422_2325)
    }

    fn add(&mut self, bytes: impl IntoIterator<Item = u8>) {
        for byte in bytes {
            self.0 = (self.0 ^ u64::from(byte)).wrapping_mul(0x0000_0100_0000_01B3);
        }
    }

    fn add_numbers(&mut self, numbers: &[i64]) {
        self.add(numbers.iter().flat_map(|number| number.to_le_bytes()));
    }

    fn add_call(&mut self, call: &Call) {
        let longitude = |axis: &Axis| i64::from(*axis == Axis::Longitude);
        match call {
            Call::GridCheck { image } => self.add(image.iter().copied()),
            Call::List(list) => {
                self.add(format!("{:?}", list.way).bytes());
                self.add(list.image.iter().copied());
                self.add_numbers(&list.fixes);
                self.add_numbers(&[list.answers_length as i64]);
            }
            Call::ReadNotation { axis, notation } => self.add_numbers(&[
                longitude(axis),
                notation.degrees as i64,
                notation.minutes as i64,
                notation.hundred_thousandths as i64,
                notation.letter.into(),
            ]),
            Call::WriteNotation { axis, nd } => self.add_numbers(&[longitude(axis), *nd]),
            Call::ConvertFile(_) | Call::Arrange(_) => panic!("{call}"),
        }
    }

    fn add_outcome(&mut self, outcome: &Outcome) {
        self.add_numbers(&[outcome.number]);
        self.add_numbers(&outcome.written);
    }
}

/// The digests of the stream's calls, and of the answers to those whose image did not come later.
fn digests(stream: Stream, came_later: fn(&[u8]) -> bool) -> (u64, u64) {
    let (mut calls, mut outcomes) = (Digest::new(), Digest::new());
    for index in 0..CASES {
        let call = stream.call(1, index);
        calls.add_call(&call);
        if call.image().is_some_and(|image| !came_later(image)) {
            outcomes.add_outcome(&call.perform(&Reference, 0));
        }
    }
    (calls.0, outcomes.0)
}

#[test]
fn edition_1_is_as_it_was_before_edition_2() {
    let says_edition_2 = |image: &[u8]| Trailer::read(image).is_some_and(|it| it.edition == 2);
    let before = (0xA406_07A8_2600_E745, 0xF477_C113_960A_7868);
    assert_eq!(digests(Stream::EditionOne, says_edition_2), before);
}

/// Does the image say edition 2 and one of these kinds?
fn says_kind(image: &[u8], kinds: &[u32]) -> bool {
    let trailer = TwoGridTrailer::read(image).filter(|it| it.edition == 2);
    trailer.is_some_and(|it| kinds.contains(&it.kind))
}

#[test]
fn edition_2_is_as_it_was_before_kinds_1_to_3() {
    let before = (0x499B_5DC0_A3E1_D9EE, 0xC70F_DEB9_2921_3A8E);
    let came_later = |image: &[u8]| says_kind(image, &[1, 2, 3]);
    assert_eq!(digests(Stream::EditionTwo, came_later), before);
}

#[test]
fn kind_1_is_as_it_was_before_kinds_2_and_3() {
    let before = (0xCBCB_7877_0C31_0B77, 0x734A_462A_A6AA_C800);
    let came_later = |image: &[u8]| says_kind(image, &[2, 3]);
    assert_eq!(digests(Stream::KindOne, came_later), before);
}

#[test]
fn kind_2_is_as_it_was_before_kind_3() {
    let before = (0xBD73_E7E7_E5F1_6918, 0xFC61_EFD2_E4F1_25A3);
    let came_later = |image: &[u8]| says_kind(image, &[3]);
    assert_eq!(digests(Stream::KindTwo, came_later), before);
}
