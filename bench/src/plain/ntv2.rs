//! NTv2 files (document 02, notes 4 and 5): the corrections of a .gsb file with one grid, or with a
//! subgrid after it, as nodes of edition 2.

use super::file_geometry::{self, FileAxis, FileGeometry};
use super::file_geometry::{LATITUDE_LIMIT, LONGITUDE_LIMIT, SPACING_LIMIT};
use super::floats::{Exact, Scale};
use super::Number;
use crate::FileRoom;

/// Bytes of a record, which is a label and a value of 8 bytes each, and of a node.
const RECORD_BYTES: usize = 16;
const NODE_BYTES: usize = 16;

/// The labels of an overview or of a grid's header.
type Labels = [&'static [u8; 8]; 11];

const OVERVIEW: Labels = [
    b"NUM_OREC",
    b"NUM_SREC",
    b"NUM_FILE",
    b"GS_TYPE ",
    b"VERSION ",
    b"SYSTEM_F",
    b"SYSTEM_T",
    b"MAJOR_F ",
    b"MINOR_F ",
    b"MAJOR_T ",
    b"MINOR_T ",
];

const HEADER: Labels = [
    b"SUB_NAME",
    b"PARENT  ",
    b"CREATED ",
    b"UPDATED ",
    b"S_LAT   ",
    b"N_LAT   ",
    b"E_LONG  ",
    b"W_LONG  ",
    b"LAT_INC ",
    b"LONG_INC",
    b"GS_COUNT",
];

/// Eleven records.
const RECORDS_BYTES: usize = RECORD_BYTES * 11;
type Records = [u8; RECORDS_BYTES];

/// nd in a second of arc.
const SECONDS: Scale = Scale {
    over: 2_500_000,
    under: 9,
};

/// A grid of a file that 18 does not refuse: its name, its geometry and its nodes.
struct FileGrid<'a> {
    name: [u8; 8],
    geometry: FileGeometry,
    shifts: &'a [u8],
}

// A function of its own, so that the list calls' code does not bear on its speed.
#[inline(never)]
pub fn corrections_from_ntv2(file: &[u8], room: FileRoom) -> Number {
    let Some((first, subgrid)) = judge_file(file, [room.nodes.len(), room.dense.len()]) else {
        return 18;
    };
    if !first.passes() || !subgrid.as_ref().is_none_or(FileGrid::passes) {
        return 19;
    }
    first.write(room.nodes);
    let mut last = [0; 6];
    if let Some(subgrid) = subgrid {
        subgrid.write(room.dense);
        last = subgrid.geometry;
    }
    room.geometry[..6].copy_from_slice(&first.geometry);
    room.geometry[6..].copy_from_slice(&last);
    0
}

impl FileGrid<'_> {
    /// Does 19 refuse none of the nodes?
    fn passes(&self) -> bool {
        let mut each = self.shifts.chunks_exact(NODE_BYTES);
        each.all(|shifts| corrections(shifts).is_some())
    }

    /// A row of the file runs from east to west.
    fn write(&self, nodes: &mut [u8]) {
        let columns = self.geometry[5] as usize;
        let rows = self.shifts.chunks_exact(NODE_BYTES * columns);
        for (shifts, nodes) in rows.zip(nodes.chunks_exact_mut(8 * columns)) {
            let shifts = shifts.chunks_exact(NODE_BYTES).rev();
            for (shifts, node) in shifts.zip(nodes.chunks_exact_mut(8)) {
                if let Some([latitude, longitude]) = corrections(shifts) {
                    node[..4].copy_from_slice(&latitude.to_le_bytes());
                    node[4..].copy_from_slice(&longitude.to_le_bytes());
                }
            }
        }
    }
}

/// The grids of a file, unless the file or the length of a buffer is refused with 18.
fn judge_file(file: &[u8], lengths: [usize; 2]) -> Option<(FileGrid<'_>, Option<FileGrid<'_>>)> {
    let (overview, rest) = file.split_first_chunk()?;
    let passes = are_labelled(overview, &OVERVIEW)
        && [0, 1].map(|record| count(overview, record)) == [11, 11]
        && value(overview, 3) == *b"SECONDS ";
    if !passes {
        return None;
    }
    let (first, rest) = judge_grid(rest, b"NONE    ", lengths[0])?;
    let (subgrid, end) = match count(overview, 2) {
        1 if lengths[1] == 0 => (None, rest),
        2 => {
            let (subgrid, end) = judge_grid(rest, &first.name, lengths[1])?;
            (Some(subgrid), end)
        }
        _ => return None,
    };
    let closed = end.len() == RECORD_BYTES && end.starts_with(b"END     ");
    closed.then_some((first, subgrid))
}

/// The grid that the bytes begin with, and those behind it, unless 18 refuses it with this parent
/// and a buffer of this length.
fn judge_grid<'a>(
    bytes: &'a [u8],
    parent: &[u8; 8],
    nodes_length: usize,
) -> Option<(FileGrid<'a>, &'a [u8])> {
    let (header, rest) = bytes.split_first_chunk()?;
    if !are_labelled(header, &HEADER) || value(header, 1) != *parent {
        return None;
    }
    let real = |record| f64::from_le_bytes(value(header, record));
    let latitude = axis(real(4), real(5), real(8), LATITUDE_LIMIT)?;
    let longitude = axis(-real(7), -real(6), real(9), LONGITUDE_LIMIT)?;
    let geometry = file_geometry::judged(latitude, longitude)?;
    let nodes = latitude.count * longitude.count;
    if i64::from(count(header, 10)) != nodes || nodes_length != 8 * nodes as usize {
        return None;
    }
    let (shifts, behind) = rest.split_at_checked(NODE_BYTES * nodes as usize)?;
    let grid = FileGrid {
        name: value(header, 0),
        geometry,
        shifts,
    };
    Some((grid, behind))
}

fn are_labelled(records: &Records, labels: &Labels) -> bool {
    let mut each = records.chunks_exact(RECORD_BYTES).zip(labels);
    each.all(|(record, label)| record[..8] == label[..])
}

/// The value of a record by its place.
fn value(records: &Records, record: usize) -> [u8; 8] {
    let at = RECORD_BYTES * record + 8;
    records[at..at + 8].try_into().expect("8 bytes")
}

/// The same as a count; the last four bytes are not read.
fn count(records: &Records, record: usize) -> i32 {
    let [a, b, c, d, ..] = value(records, record);
    i32::from_le_bytes([a, b, c, d])
}

/// An axis from its bounds and its spacing, unless one is not finite or past its limit, or the
/// bounds are apart by no whole number of spacings.
fn axis(start: f64, end: f64, spacing: f64, limit: i64) -> Option<FileAxis> {
    let angle = |seconds: f64, limit: i64| Exact::of_f64(seconds)?.nearest(SECONDS, limit);
    let (start, end) = (angle(start, limit)?, angle(end, limit)?);
    let spacing = angle(spacing, SPACING_LIMIT)?;
    let whole = spacing >= 1 && (end - start) % spacing == 0;
    whole.then(|| FileAxis {
        start,
        spacing,
        count: (end - start) / spacing + 1,
    })
}

/// A node's corrections in nd, unless 19 refuses one. The longitude shift is positive to the west.
// In line, or a call for each node takes a fifth of the time.
#[inline(always)]
fn corrections(node: &[u8]) -> Option<[i32; 2]> {
    let shift = |at: usize| f32::from_le_bytes(node[at..at + 4].try_into().expect("4 bytes"));
    let nd = |seconds: f32| Exact::of_f32(seconds)?.nearest(SECONDS, 10_000_000);
    Some([nd(shift(0))? as i32, nd(-shift(4))? as i32])
}
