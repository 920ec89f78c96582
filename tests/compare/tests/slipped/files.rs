//! The conversion of a file with a slip.

use super::FileSlip;
use compare::{causes, File, FileRoom, Format, GridOfFile};
use reference::{convert_ntv2, convert_vdatum, Converted, Number, GRID_LABELS, OVERVIEW_LABELS};
use std::ops::Range;

impl FileSlip {
    pub fn convert(self, format: Format, file: &mut [u8], mut room: FileRoom) -> Number {
        let seen = self.file_seen(format, file, room.buffer_lengths());
        match self {
            FileSlip::GeometryCleared => room.geometry.fill(0),
            FileSlip::FileWritten => file.iter_mut().take(1).for_each(|byte| *byte ^= 1),
            _ => {}
        }
        if let Some(number) = self.number_seen(&seen) {
            return number;
        }
        match self.converted(&seen) {
            Ok(grids) => {
                let stored = grids.iter().map(|grid| Converted {
                    nodes: self.nodes_stored(format, grid),
                    ..*grid
                });
                store(&stored.collect::<Vec<Converted>>(), &mut room);
                0
            }
            Err(number) => {
                if number == format.layout().refusals[1] {
                    self.write_before_the_nodes_are_asked(&seen, &mut room);
                }
                number
            }
        }
    }

    fn converted(self, seen: &File) -> Result<Vec<Converted>, Number> {
        let (file, lengths) = (&seen.bytes, seen.buffer_lengths);
        let nearest = |width, bits, scale| self.nearest(width, bits, scale);
        let turned = |width, bits, scale| self.nearest_turned(width, bits, scale);
        match seen.format {
            Format::Vdatum => convert_vdatum(file, lengths[0], nearest).map(|it| vec![it]),
            Format::Ntv2 => convert_ntv2(file, lengths, nearest, turned),
        }
    }

    /// File and buffers as the slip lets them look.
    fn file_seen(self, format: Format, file: &[u8], buffer_lengths: [usize; 2]) -> File {
        let mut seen = File {
            format,
            bytes: file.to_vec(),
            buffer_lengths,
        };
        let layout = format.layout();
        if let Some(grids) = seen.grids() {
            self.change_bytes(&mut seen, &grids);
        }
        if self == FileSlip::LongerFileTaken && file.len() % layout.node == 1 {
            seen.bytes.pop();
        }
        if self == FileSlip::LongerBufferTaken && buffer_lengths[0] % layout.buffer_node == 1 {
            seen.buffer_lengths[0] -= 1;
        }
        seen
    }

    /// Changes the bytes of a file with its headers to what the slip takes them for.
    fn change_bytes(self, file: &mut File, grids: &[GridOfFile]) {
        let last = grids.last().filter(|it| last_is_unfit(file, it));
        if let (FileSlip::LastNodeNotAsked, Some(last)) = (self, last) {
            let nodes = last.nodes.clone();
            let first = nodes.end.saturating_sub(file.format.layout().node);
            file.bytes[nodes.start.max(first)..nodes.end].fill(0);
        }
        match file.format {
            Format::Vdatum => self.change_vdatum_header(&mut file.bytes),
            Format::Ntv2 => self.change_overview(&mut file.bytes),
        }
        for grid in grids {
            if file.format == Format::Ntv2 {
                self.change_header(&mut file.bytes[grid.header_bytes()]);
            }
            self.change_nodes(&mut file.bytes[grid.nodes.clone()]);
        }
    }

    fn change_vdatum_header(self, bytes: &mut [u8]) {
        match self {
            FileSlip::HeadersReversed => {
                bytes[..32].chunks_mut(8).for_each(<[u8]>::reverse);
                bytes[32..40].chunks_mut(4).for_each(<[u8]>::reverse);
            }
            FileSlip::SpacingsSwapped => bytes[16..32].rotate_left(8),
            FileSlip::SouthAndWestSwapped => bytes[..16].rotate_left(8),
            FileSlip::RowsAndColumnsSwapped => bytes[32..40].rotate_left(4),
            _ => {}
        }
    }

    fn change_overview(self, bytes: &mut [u8]) {
        match self {
            FileSlip::HeadersReversed => {
                for count in [8, 24, 40] {
                    bytes[count..count + 4].reverse();
                }
            }
            FileSlip::FillingNotAsked => fill(&mut bytes[..16 * OVERVIEW_LABELS.len()]),
            _ => {}
        }
    }

    /// The header of an NTv2 file's grid.
    fn change_header(self, header: &mut [u8]) {
        match self {
            FileSlip::HeadersReversed => {
                GRID_LABELS[4..10]
                    .iter()
                    .for_each(|label| header[value_of(label)].reverse());
                let count = value_of("GS_COUNT").start;
                header[count..count + 4].reverse();
            }
            FileSlip::SpacingsSwapped => swap(header, "LAT_INC", "LONG_INC"),
            FileSlip::EastAndWestSwapped => swap(header, "E_LONG", "W_LONG"),
            FileSlip::RowsByTheColumnSpacing => {
                header.copy_within(value_of("LONG_INC"), value_of("LAT_INC").start);
            }
            FileSlip::FillingNotAsked => fill(header),
            _ => {}
        }
    }

    fn change_nodes(self, nodes: &mut [u8]) {
        match self {
            FileSlip::NodesReversed => nodes.chunks_mut(4).for_each(<[u8]>::reverse),
            FileSlip::AccuracyForShift => {
                nodes
                    .chunks_exact_mut(16)
                    .for_each(|it| it.copy_within(8..12, 4));
            }
            _ => {}
        }
    }

    /// The number that the slip gives at once.
    fn number_seen(self, seen: &File) -> Option<Number> {
        let [of_file, of_nodes] = seen.format.layout().refusals;
        match self {
            FileSlip::NodesFirst => {
                let unfit = causes(seen).iter().any(|cause| cause.is_of_a_node());
                unfit.then_some(of_nodes)
            }
            FileSlip::NotAsked(cause) => (causes(seen) == [cause]).then_some(0),
            FileSlip::LongCounts => {
                let overview = seen.overview()?;
                let counts = ["NUM_OREC", "NUM_SREC", "NUM_FILE"];
                let long = counts.iter().any(|it| overview.value(it)[4..] != [0; 4]);
                long.then_some(of_file)
            }
            _ => None,
        }
    }

    /// The bytes that a grid's buffer gets.
    fn nodes_stored(self, format: Format, converted: &Converted) -> Vec<u8> {
        let mut stored = converted.nodes.clone();
        let node = format.layout().buffer_node;
        let row = node * converted.geometry.columns as usize;
        match self {
            FileSlip::BigEndianBuffer => stored.chunks_mut(4).for_each(<[u8]>::reverse),
            FileSlip::NorthFirst => stored = stored.chunks(row).rev().flatten().copied().collect(),
            FileSlip::NodesFromTheWest => {
                let nodes = stored.chunks(row).flat_map(|row| row.chunks(node).rev());
                stored = nodes.flatten().copied().collect();
            }
            FileSlip::LongitudeFirst => stored.chunks_mut(node).for_each(|it| it.rotate_left(4)),
            _ => {}
        }
        stored
    }

    /// What the slip writes although a node is refused.
    fn write_before_the_nodes_are_asked(self, seen: &File, room: &mut FileRoom) {
        match self {
            FileSlip::RowsWrittenAtOnce => {
                let unwritten = room.geometry.to_vec();
                store(&before_the_unfit_node(seen), room);
                room.geometry.copy_from_slice(&unwritten);
            }
            FileSlip::GeometryWrittenBeforeNodes => {
                room.store_geometry(&before_the_unfit_node(seen));
            }
            _ => {}
        }
    }
}

/// Stores what the grids give, whose nodes may be too few for their buffers.
fn store(grids: &[Converted], room: &mut FileRoom) {
    let buffers = [&mut *room.nodes, &mut *room.dense];
    for (buffer, grid) in buffers.into_iter().zip(grids) {
        buffer[..grid.nodes.len()].copy_from_slice(&grid.nodes);
    }
    room.store_geometry(grids);
}

/// What a file that is refused for its nodes gives before the row of the first unfit one: its
/// grids, with the nodes of these rows alone.
fn before_the_unfit_node(file: &File) -> Vec<Converted> {
    let layout = file.format.layout();
    let (grids, mut fit) = (file.grids().expect("a file with nodes"), file.clone());
    let mut fit_nodes = Vec::new();
    for grid in &grids {
        let unfit = file.values_of(grid).position(|it| !layout.allows(it));
        let count = unfit.map(|it| it / layout.values.len());
        let count = count.unwrap_or(grid.nodes.len() / layout.node);
        fit.bytes[grid.nodes.start + count * layout.node..grid.nodes.end].fill(0);
        fit_nodes.push(count);
    }
    let mut converted = fit.converted().expect("a fit file");
    let mut all_fit = true;
    for (grid, count) in converted.iter_mut().zip(fit_nodes) {
        let columns = grid.geometry.columns as usize;
        let rows = if all_fit { count / columns } else { 0 };
        all_fit &= count as i128 == grid.geometry.nodes();
        grid.nodes.truncate(rows * columns * layout.buffer_node);
    }
    converted
}

/// Where the value of a record stands in a grid's header.
fn value_of(label: &str) -> Range<usize> {
    let place = GRID_LABELS.iter().position(|it| *it == label);
    let at = 16 * place.expect("a label") + 8;
    at..at + 8
}

/// Exchanges the values of two records of a grid's header.
fn swap(header: &mut [u8], one: &str, other: &str) {
    for (one, other) in value_of(one).zip(value_of(other)) {
        header.swap(one, other);
    }
}

/// Fills the labels of records with spaces in place of zeros.
fn fill(records: &mut [u8]) {
    let labels = records.chunks_exact_mut(16).map(|it| &mut it[..8]);
    let zeros = labels.flat_map(|it| it.iter_mut().filter(|byte| **byte == 0));
    zeros.for_each(|byte| *byte = b' ');
}

fn last_is_unfit(file: &File, grid: &GridOfFile) -> bool {
    let layout = file.format.layout();
    let mut last = file.values_of(grid).rev().take(layout.values.len());
    last.any(|it| !layout.allows(it))
}
