//! How a call and a difference are shown: short enough to read, and enough to replay.

use crate::call::{byte_mark, mark};
use crate::{Arranged, Call, Case, Cause, Difference, File, Outcome, Part};
use reference::{DenseTrailer, Trailer, TwoGridTrailer};
use std::fmt::{self, Display, Formatter};

/// An image is shown up to so many bytes, of its end; a file too, of its beginning.
const SHOWN_BYTES: usize = 400;
/// A list and an outcome are shown up to so many of their rows, of differing answers half as many.
pub const SHOWN_ROWS: usize = 30;

impl Display for Call {
    fn fmt(&self, to: &mut Formatter) -> fmt::Result {
        match self {
            Call::GridCheck { image } => {
                writeln!(to, "grid check")?;
                show_image(to, image)
            }
            Call::List(list) => {
                let (fixes, answers) = (list.fixes.len(), list.answers_length);
                let lengths = format!("{fixes} fix numbers, {answers} answer numbers");
                writeln!(to, "list {:?}: {lengths}", list.way)?;
                show_image(to, &list.image)?;
                show_rows(to, "fix", &list.fixes, 3)
            }
            Call::ReadNotation { axis, notation } => writeln!(to, "read {axis:?} {notation:?}"),
            Call::WriteNotation { axis, nd } => writeln!(to, "write {axis:?} {nd}"),
            Call::ConvertFile(file) => show_file(to, file),
            Call::Arrange(given) => {
                let length = given.buffer_length;
                writeln!(to, "into {:?}: buffer of {length} bytes", given.arrangement)?;
                show_image(to, &given.image)
            }
        }
    }
}

/// The trailer's fields and the bytes: the trailer as one line, the rest in lines as long as a
/// node of edition 1 or a correction node of edition 2 in nodes.
fn show_image(to: &mut Formatter, image: &[u8]) -> fmt::Result {
    writeln!(to, "image of {} bytes", image.len())?;
    let second = TwoGridTrailer::read(image).filter(|it| it.edition == 2);
    let (trailer_bytes, line_bytes) = if second.is_some() { (80, 8) } else { (40, 12) };
    if let Some(trailer) = second {
        writeln!(to, "{trailer:?}")?;
        if let Some(dense) = DenseTrailer::read(image, &trailer).filter(|_| trailer.kind == 1) {
            writeln!(to, "{dense:?}")?;
        }
    } else if let Some(trailer) = Trailer::read(image) {
        writeln!(to, "{trailer:?}")?;
    }
    let first = image.len().saturating_sub(SHOWN_BYTES);
    if first > 0 {
        writeln!(to, "its first {first} bytes are not shown")?;
    }
    let shown = &image[first..];
    let (nodes, trailer) = shown.split_at(shown.len().saturating_sub(trailer_bytes));
    for line in nodes.rchunks(line_bytes).rev().chain([trailer]) {
        writeln!(to, "  {}", hexadecimal(line))?;
    }
    Ok(())
}

fn hexadecimal(bytes: &[u8]) -> String {
    let words: Vec<String> = bytes.iter().map(|byte| format!("{byte:02x}")).collect();
    words.join(" ")
}

/// The headers and the nodes, 16 bytes to a line, and the header of a subgrid once more.
fn show_file(to: &mut Formatter, file: &File) -> fmt::Result {
    let (length, [nodes, dense]) = (file.bytes.len(), file.buffer_lengths);
    let format = file.format;
    writeln!(
        to,
        "{format} file of {length} bytes, buffers of {nodes} and {dense} bytes"
    )?;
    let (shown, rest) = file.bytes.split_at(length.min(SHOWN_BYTES));
    let (headers, nodes) = shown.split_at(shown.len().min(format.layout().headers));
    for line in headers.chunks(16).chain(nodes.chunks(16)) {
        writeln!(to, "  {}", hexadecimal(line))?;
    }
    if !rest.is_empty() {
        writeln!(to, "its last {} bytes are not shown", rest.len())?;
    }
    let Some(header) = file.subgrid_header() else {
        return Ok(());
    };
    writeln!(to, "header of the subgrid at byte {}", header.start)?;
    for line in file.bytes[header].chunks(16) {
        writeln!(to, "  {}", hexadecimal(line))?;
    }
    Ok(())
}

fn show_rows(to: &mut Formatter, name: &str, numbers: &[i64], width: usize) -> fmt::Result {
    for (index, row) in numbers.chunks(width).take(SHOWN_ROWS).enumerate() {
        writeln!(to, "{name} {index}: {row:?}")?;
    }
    let rows = numbers.len().div_ceil(width);
    if rows > SHOWN_ROWS {
        writeln!(to, "{} more not shown", rows - SHOWN_ROWS)?;
    }
    Ok(())
}

impl Outcome {
    /// What stands in the memory lent for values, five numbers to a row, and a word for each
    /// number that the call left alone; then what stands in the buffers for nodes, four bytes to a
    /// row.
    pub fn rows(&self) -> impl Iterator<Item = String> + '_ {
        let words = self.written.iter().enumerate().map(|(index, number)| {
            if *number == mark(index) {
                "unchanged".to_string()
            } else {
                number.to_string()
            }
        });
        let words: Vec<String> = words.collect();
        let values = (0..words.len().div_ceil(5)).map(move |row| {
            let end = words.len().min(5 * row + 5);
            words[5 * row..end].join(" ")
        });
        values.chain(self.node_rows())
    }

    fn node_rows(&self) -> impl Iterator<Item = String> + '_ {
        let buffers = self.nodes.iter();
        let nodes = buffers.flat_map(|buffer| buffer.chunks(4).enumerate());
        nodes.map(|(index, node)| {
            let marked = |(byte, found): (usize, &u8)| *found == byte_mark(4 * index + byte);
            if node.iter().enumerate().all(marked) {
                "unchanged".to_string()
            } else {
                hexadecimal(node)
            }
        })
    }
}

impl Display for Outcome {
    fn fmt(&self, to: &mut Formatter) -> fmt::Result {
        write!(to, "number {}", self.number)?;
        if !self.rest_unchanged {
            write!(
                to,
                ", wrote to what it may only read or beside what it was lent"
            )?;
        }
        Ok(())
    }
}

impl Display for Cause {
    fn fmt(&self, to: &mut Formatter) -> fmt::Result {
        write!(to, "{:?}", self.reason)?;
        match self.part {
            Part::First => Ok(()),
            Part::Subgrid => write!(to, " of the subgrid"),
        }
    }
}

impl Display for Arranged {
    fn fmt(&self, to: &mut Formatter) -> fmt::Result {
        write!(to, "into {:?}: {:?}", self.arrangement, self.event)
    }
}

impl Display for Case {
    fn fmt(&self, to: &mut Formatter) -> fmt::Result {
        write!(to, "{}:{} of {}", self.seed, self.index, self.stream)
    }
}

impl Display for Difference {
    fn fmt(&self, to: &mut Formatter) -> fmt::Result {
        writeln!(to, "difference in case {}", self.case)?;
        write!(to, "{}", self.call)?;
        writeln!(to, "expected {}", self.expected)?;
        writeln!(to, "found    {}", self.found)?;
        let rows = self.expected.rows().zip(self.found.rows()).enumerate();
        let differing = rows.filter(|(_, (expected, found))| expected != found);
        for (index, (expected, found)) in differing.take(SHOWN_ROWS / 2) {
            writeln!(to, "answer {index}: expected {expected}")?;
            writeln!(to, "answer {index}: found    {found}")?;
        }
        let Case {
            stream,
            seed,
            index,
        } = self.case;
        write!(
            to,
            "replay with: compare --{stream} --replay {seed}:{index}"
        )
    }
}
