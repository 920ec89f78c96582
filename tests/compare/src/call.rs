//! One call, how a converter performs it over lent memory, and what comes of it.

use crate::lent::Lent;
use crate::random::Random;
use crate::{Converter, File, FileRoom, Way};
use reference::{Arrangement, Axis, Notation, Number};

/// What a list call is given.
#[derive(Clone, Debug, PartialEq, Eq)]
pub struct List {
    pub way: Way,
    pub image: Vec<u8>,
    pub fixes: Vec<i64>,
    pub answers_length: usize,
}

/// What the conversion of an image into another arrangement of its corrections is given, and fixes
/// by which the images before and after it are compared.
#[derive(Clone, Debug, PartialEq, Eq)]
pub struct Arranging {
    pub arrangement: Arrangement,
    pub image: Vec<u8>,
    pub buffer_length: usize,
    pub fixes: Vec<i64>,
}

/// A call with all that it is given.
#[derive(Clone, Debug, PartialEq, Eq)]
pub enum Call {
    GridCheck { image: Vec<u8> },
    List(List),
    ReadNotation { axis: Axis, notation: Notation },
    WriteNotation { axis: Axis, nd: i64 },
    ConvertFile(File),
    Arrange(Arranging),
}

/// What a call did: its number, what the memory lent for its values, for nodes or an image and for
/// the nodes of a subgrid holds afterwards, and whether the memory lent for reading and everything beside the lent
/// parts is unchanged.
#[derive(Clone, Debug, PartialEq, Eq)]
pub struct Outcome {
    pub number: Number,
    pub written: Vec<i64>,
    pub nodes: [Vec<u8>; 2],
    pub rest_unchanged: bool,
}

/// What memory for values holds before a call: no call gives such values.
const UNWRITTEN: i64 = 0x5EED_0000_0000_0000;
const BYTE_GUARD: u8 = 0xA5;

impl Call {
    /// The image that the call takes, if it takes one.
    pub fn image(&self) -> Option<&[u8]> {
        match self {
            Call::GridCheck { image }
            | Call::List(List { image, .. })
            | Call::Arrange(Arranging { image, .. }) => Some(image),
            Call::ReadNotation { .. } | Call::WriteNotation { .. } => None,
            Call::ConvertFile(_) => None,
        }
    }

    /// A call to which the answer is the same, other bytes standing where the given one has some
    /// that are not read.
    pub fn with_other_unread_bytes(&self, random: &mut Random) -> Option<Call> {
        match self {
            Call::ConvertFile(file) => file.with_other_unread_bytes(random).map(Call::ConvertFile),
            _ => None,
        }
    }

    /// Performs the call over memory of its own. The shift, 0 to 7, moves the lent image or file by
    /// so many bytes, so that it stands at every kind of address.
    pub fn perform(&self, converter: &dyn Converter, shift: usize) -> Outcome {
        match self {
            Call::GridCheck { image } => perform_check(converter, image, shift),
            Call::List(list) => perform_list(converter, list, shift),
            Call::ReadNotation { axis, notation } => {
                let mut nd = unwritten(1);
                let number = converter.read_notation(*axis, *notation, &mut nd.part()[0]);
                outcome(number, &nd, true)
            }
            Call::WriteNotation { axis, nd } => perform_writing(converter, *axis, *nd),
            Call::ConvertFile(file) => perform_file(converter, file, shift),
            Call::Arrange(arranging) => perform_arranging(converter, arranging, shift),
        }
    }
}

fn perform_check(converter: &dyn Converter, image: &[u8], shift: usize) -> Outcome {
    let mut lent_image = Lent::new(image, shift, BYTE_GUARD);
    let mut findings = unwritten(6);
    let findings_part = findings.part().try_into().expect("six findings");
    let number = converter.grid_check(lent_image.part(), findings_part);
    outcome(number, &findings, lent_image.still_holds(image))
}

fn perform_list(converter: &dyn Converter, list: &List, shift: usize) -> Outcome {
    let mut image = Lent::new(&list.image, shift, BYTE_GUARD);
    let mut fixes = Lent::new(&list.fixes, 0, UNWRITTEN);
    let mut answers = unwritten(list.answers_length);
    let number = converter.list(list.way, image.part(), fixes.part(), answers.part());
    let inputs_unchanged = image.still_holds(&list.image) && fixes.still_holds(&list.fixes);
    outcome(number, &answers, inputs_unchanged)
}

fn perform_writing(converter: &dyn Converter, axis: Axis, nd: i64) -> Outcome {
    let marks: [u64; 4] = std::array::from_fn(|index| mark(index) as u64);
    let mut notation = Lent::new(&marks, 0, UNWRITTEN as u64);
    let notation_part = notation.part().try_into().expect("four numbers");
    let number = converter.write_notation(axis, nd, notation_part);
    Outcome {
        number,
        written: notation.values().iter().map(|it| *it as i64).collect(),
        nodes: Default::default(),
        rest_unchanged: notation.guards_hold(),
    }
}

/// The buffers for nodes are moved by other bytes than the file, so that each of them ends right
/// before the closed page in its turn.
fn perform_file(converter: &dyn Converter, file: &File, shift: usize) -> Outcome {
    let mut bytes = Lent::new(&file.bytes, shift, BYTE_GUARD);
    let [mut nodes, mut dense] = [(0, 7 - shift), (1, (shift + 3) % 8)]
        .map(|(buffer, shift)| unwritten_bytes(file.buffer_lengths[buffer], shift));
    let mut geometry = unwritten(file.format.layout().geometry_numbers);
    let room = FileRoom {
        nodes: nodes.part(),
        dense: dense.part(),
        geometry: geometry.part(),
    };
    let number = converter.convert_file(file.format, bytes.part(), room);
    let guards_hold = nodes.guards_hold() && dense.guards_hold();
    Outcome {
        nodes: [nodes.values().to_vec(), dense.values().to_vec()],
        ..outcome(
            number,
            &geometry,
            bytes.still_holds(&file.bytes) && guards_hold,
        )
    }
}

/// The buffer is moved by other bytes than the image too.
fn perform_arranging(converter: &dyn Converter, given: &Arranging, shift: usize) -> Outcome {
    let mut image = Lent::new(&given.image, shift, BYTE_GUARD);
    let mut buffer = unwritten_bytes(given.buffer_length, 7 - shift);
    let number = converter.arrange(given.arrangement, image.part(), buffer.part());
    Outcome {
        number,
        written: Vec::new(),
        nodes: [buffer.values().to_vec(), Vec::new()],
        rest_unchanged: image.still_holds(&given.image) && buffer.guards_hold(),
    }
}

fn outcome(number: Number, values: &Lent<i64>, inputs_unchanged: bool) -> Outcome {
    Outcome {
        number,
        written: values.values().to_vec(),
        nodes: Default::default(),
        rest_unchanged: inputs_unchanged && values.guards_hold(),
    }
}

/// What stands at an index of memory for values before the call.
pub fn mark(index: usize) -> i64 {
    UNWRITTEN + index as i64
}

/// What stands at an index of a buffer for nodes or an image before the call: neither 0 nor 255, the most
/// frequent bytes of nodes, and not what stands beside it.
pub fn byte_mark(index: usize) -> u8 {
    0x80 + (index % 64) as u8
}

/// A buffer of so many bytes, each marked by its index.
fn unwritten_bytes(length: usize, shift: usize) -> Lent<u8> {
    let marks: Vec<u8> = (0..length).map(byte_mark).collect();
    Lent::new(&marks, shift, BYTE_GUARD)
}

/// Memory for so many values, each marked by its index.
fn unwritten(length: usize) -> Lent<i64> {
    let marks: Vec<i64> = (0..length).map(mark).collect();
    Lent::new(&marks, 0, UNWRITTEN)
}
