//! Files and buffers of other lengths, and files of random bytes.

use crate::cases::damage::{bytes, truncated};
use crate::random::Random;
use crate::{File, Format};

/// The file with another length, or with buffers of another length, or with both.
pub fn with_other_lengths(random: &mut Random, file: &File) -> File {
    let kind = random.below(10);
    let mut other = file.clone();
    if kind < 5 {
        other.bytes = of_other_length(random, file);
    }
    if kind > 3 {
        change_buffer_lengths(random, &mut other);
    }
    other
}

/// The bytes with a few or some more behind them, or without a few of them, or at times, before the
/// header of a subgrid, with END or without a node.
fn of_other_length(random: &mut Random, file: &File) -> Vec<u8> {
    let change = match file.format {
        Format::Vdatum => random.pick(&[1, 2, 3, 4, 8, 40]),
        Format::Ntv2 => random.pick(&[1, 1, 4, 8, 15, 16, 17, 32, 176, 192, 368]),
    };
    if let Some(header) = file.subgrid_header().filter(|_| random.chance(20)) {
        let at = header.start;
        let (before, behind) = file.bytes.split_at(at);
        let end = &file.bytes[file.bytes.len() - 16..];
        let without_a_node = &before[..at - 16];
        let (first, between) = random.pick(&[(before, end), (without_a_node, &[])]);
        return [first, between, behind].concat();
    }
    if random.chance(50) {
        return [&file.bytes[..], &vec![0; change]].concat();
    }
    file.bytes[..file.bytes.len().saturating_sub(change)].to_vec()
}

/// Changes the length of a buffer, or exchanges the two of an NTv2 file.
fn change_buffer_lengths(random: &mut Random, file: &mut File) {
    let buffer = match file.format {
        Format::Vdatum => 0,
        Format::Ntv2 if random.chance(5) => return file.buffer_lengths.swap(0, 1),
        Format::Ntv2 => random.pick(&[0, 1]),
    };
    file.buffer_lengths[buffer] = other_buffer_length(random, file, buffer);
}

/// A buffer with a byte or a node more or less, without any, with a byte for each node, as long as
/// the whole file or, for a subgrid, as the first one.
fn other_buffer_length(random: &mut Random, file: &File, buffer: usize) -> usize {
    if buffer == 1 && random.chance(10) {
        return file.buffer_lengths[0];
    }
    let (right, whole) = (file.buffer_lengths[buffer], file.bytes.len());
    let node = file.format.layout().buffer_node;
    let some = random.below(2 * right as u64 + 2) as usize;
    random.pick(&[
        right + 1,
        right + 1,
        right.saturating_sub(1),
        right.saturating_sub(1),
        right + node,
        right.saturating_sub(node),
        0,
        right / node,
        2 * right,
        whole,
        some,
    ])
}

/// A part of the file from either end, its buffers as before or for as many nodes as are left.
pub fn truncated_file(random: &mut Random, file: &File) -> File {
    let length = file.bytes.len();
    let mut of_note = match file.format {
        Format::Vdatum => vec![0, 1, 8, 39, 40, 41],
        Format::Ntv2 => vec![0, 1, 16, 175, 176, 351, 352, 367, 368, 369],
    };
    if let Some(header) = file.subgrid_header() {
        of_note.extend([0, 1, 16, 175, 176, 191, 192].map(|it| header.start + it));
    }
    of_note.iter_mut().for_each(|it| *it = length.min(*it));
    let bytes = truncated(random, file.bytes.clone(), &of_note);
    let left = room_for(file.format, bytes.len());
    let buffer_lengths = random.pick(&[file.buffer_lengths, [left, 0]]);
    File {
        bytes,
        buffer_lengths,
        ..*file
    }
}

/// Random bytes.
pub fn random_file(random: &mut Random, format: Format) -> File {
    let layout = format.layout();
    let bytes = bytes(random, 3 * (layout.headers + layout.end) as u64);
    let left = room_for(format, bytes.len());
    let buffer_lengths = random.pick(&[[0; 2], [left, 0]]);
    File {
        format,
        bytes,
        buffer_lengths,
    }
}

/// The bytes of a buffer for the nodes of a file of so many bytes.
fn room_for(format: Format, length: usize) -> usize {
    let layout = format.layout();
    let nodes = length.saturating_sub(layout.headers + layout.end);
    nodes * layout.buffer_node / layout.node
}
