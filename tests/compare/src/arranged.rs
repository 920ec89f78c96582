//! What can come of a conversion into another arrangement, found from the image and not from what a
//! converter answered; and what must then be the same over the converted image.

use crate::{Arranging, Call, List, Outcome, Side, Way};
use reference::{open_image, Arrangement, Number, Trailer, TwoGridTrailer};

/// What came of a conversion into an arrangement.
#[derive(Clone, Copy, Debug, PartialEq, Eq)]
pub struct Arranged {
    pub arrangement: Arrangement,
    pub event: Event,
}

/// What can come of it.
#[derive(Clone, Copy, Debug, PartialEq, Eq)]
pub enum Event {
    /// The buffer gets the image, which has bytes before its first node or not.
    Converted { bytes_before: bool },
    /// The image's number, of the kind that is converted or another.
    Image { number: Number, right_kind: bool },
    /// 2: an image of edition 1, the buffer of the exact length or not.
    EditionOne { buffer_fits: bool },
    /// 2: an image of another kind.
    Kind { kind: u32, buffer_fits: bool },
    /// 14: the buffer is too short or too long.
    Buffer(Side),
    /// 14: the buffer is as long as the image, which has bytes before its first node.
    BufferOfTheWholeImage,
}

impl Arranged {
    pub fn of(given: &Arranging) -> Arranged {
        Arranged {
            arrangement: given.arrangement,
            event: Event::of(given),
        }
    }

    /// All that can come of both conversions.
    pub fn all() -> Vec<Arranged> {
        let both = [Arrangement::Planes, Arrangement::Nodes];
        let of = |arrangement| {
            let events = Event::all(arrangement).into_iter();
            events.map(move |event| Arranged { arrangement, event })
        };
        both.into_iter().flat_map(of).collect()
    }
}

impl Event {
    fn all(arrangement: Arrangement) -> Vec<Event> {
        let mut all = vec![Event::BufferOfTheWholeImage];
        all.extend([Side::Below, Side::Above].map(Event::Buffer));
        let image = |number, right_kind| Event::Image { number, right_kind };
        all.extend([1, 2, 3, 4, 5, 6, 20].map(|number| image(number, false)));
        all.extend([3, 4, 5, 6].map(|number| image(number, true)));
        for yes in [false, true] {
            all.push(Event::Converted { bytes_before: yes });
            all.push(Event::EditionOne { buffer_fits: yes });
            let kinds = (0..4).filter(|kind| *kind != arrangement.other().kind());
            all.extend(kinds.map(|kind| Event::Kind {
                kind,
                buffer_fits: yes,
            }));
        }
        all
    }

    fn of(given: &Arranging) -> Event {
        let image = &given.image;
        let said = TwoGridTrailer::read(image).filter(|it| it.edition == 2);
        let right_kind = said.is_some_and(|it| it.kind == given.arrangement.other().kind());
        if let Err(number) = open_image(image) {
            return Event::Image { number, right_kind };
        }
        let wanted = given.length_from_the_first_node().expect("an opened image");
        let (length, bytes_before) = (given.buffer_length, image.len() > wanted);
        let buffer_fits = length == wanted;
        match said {
            None => Event::EditionOne { buffer_fits },
            Some(TwoGridTrailer { kind, .. }) if !right_kind => Event::Kind { kind, buffer_fits },
            Some(_) if buffer_fits => Event::Converted { bytes_before },
            Some(_) if bytes_before && length == image.len() => Event::BufferOfTheWholeImage,
            Some(_) if length < wanted => Event::Buffer(Side::Below),
            Some(_) => Event::Buffer(Side::Above),
        }
    }

    /// The number of a conversion of which this comes.
    pub fn number(self) -> Number {
        match self {
            Event::Converted { .. } => 0,
            Event::Image { number, .. } => number,
            Event::EditionOne { .. } | Event::Kind { .. } => 2,
            Event::Buffer(_) | Event::BufferOfTheWholeImage => 14,
        }
    }
}

impl Arranging {
    /// How far it is from the image's first node to its end, by the back that its trailer says, if
    /// it is long enough to have a trailer and so many bytes.
    pub fn length_from_the_first_node(&self) -> Option<usize> {
        let back = match Trailer::read(&self.image)?.edition {
            2 => TwoGridTrailer::read(&self.image)?.correction_back,
            _ => Trailer::read(&self.image)?.back,
        };
        Some(back as usize).filter(|it| *it <= self.image.len())
    }

    /// The check and both lists over the image, and the same over the converted one.
    pub fn before_and_after(&self, converted: &[u8]) -> [[Call; 2]; 3] {
        let images = [&self.image[..], converted];
        let list = |way| {
            images.map(|image| {
                Call::List(List {
                    way,
                    image: image.to_vec(),
                    fixes: self.fixes.clone(),
                    answers_length: self.fixes.len() / 3 * 5,
                })
            })
        };
        let checks = images.map(|image| Call::GridCheck {
            image: image.to_vec(),
        });
        [checks, list(Way::Out), list(Way::Back)]
    }

    /// The conversion of the converted image, and what comes of it: the image from its first node on.
    pub fn there_and_back(&self, converted: &[u8]) -> (Call, Outcome) {
        let back = Arranging {
            arrangement: self.arrangement.other(),
            image: converted.to_vec(),
            buffer_length: converted.len(),
            fixes: Vec::new(),
        };
        let from_the_first_node = self.image[self.image.len() - converted.len()..].to_vec();
        let outcome = Outcome {
            number: 0,
            written: Vec::new(),
            nodes: [from_the_first_node, Vec::new()],
            rest_unchanged: true,
        };
        (Call::Arrange(back), outcome)
    }
}
