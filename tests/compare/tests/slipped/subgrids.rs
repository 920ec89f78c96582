//! The conversion of an NTv2 file with a slip of its subgrid.

use super::SubgridSlip;
use crate::nested::faults;
use compare::{causes, Cause, File, FileRoom, Format, Part};
use reference::{text, Converted, FileGrid, Ntv2File, Number, ShiftNode, END_LABEL};

/// Where NUM_FILE has its lowest byte.
const NUM_FILE: usize = 40;

impl SubgridSlip {
    pub fn convert(self, file: &[u8], mut room: FileRoom) -> Number {
        let seen = self.file_seen(file, room.buffer_lengths());
        if self == SubgridSlip::SecondBufferCleared {
            room.dense.fill(0);
        }
        if let Some(number) = self.number_seen(&seen) {
            return number;
        }
        match seen.converted() {
            Ok(grids) if self == SubgridSlip::MisalignedRefused && misaligned(&grids) => 18,
            Ok(grids) => {
                self.store(&grids, &mut room);
                0
            }
            Err(number) => {
                if number == 19 {
                    self.write_before_the_subgrids_shifts(&seen, &mut room);
                }
                number
            }
        }
    }

    /// File and buffers as the slip lets them look.
    fn file_seen(self, file: &[u8], buffer_lengths: [usize; 2]) -> File {
        let mut seen = File {
            format: Format::Ntv2,
            bytes: file.to_vec(),
            buffer_lengths,
        };
        let count = seen.overview().map(|it| it.count("NUM_FILE"));
        match self {
            SubgridSlip::ThreeGridsTaken(grids) if count == Some(3) => {
                seen.bytes[NUM_FILE..NUM_FILE + 4].copy_from_slice(&grids.to_le_bytes());
            }
            SubgridSlip::BufferForNoSubgridTaken if count == Some(1) => seen.buffer_lengths[1] = 0,
            SubgridSlip::LongerSecondBufferTaken if count == Some(2) => {
                seen.buffer_lengths[1] -= seen.buffer_lengths[1] % 8;
            }
            SubgridSlip::BuffersSwapped if count == Some(2) => seen.buffer_lengths.swap(0, 1),
            SubgridSlip::EndBetweenTheGridsTaken => without_end_between(&mut seen),
            _ => {}
        }
        if let Some(mut parts) = Ntv2File::read(&seen.bytes) {
            self.change_parents(&mut parts.grids);
            self.change_shifts(&mut parts.grids);
            seen.bytes = parts.write();
        }
        seen
    }

    /// Makes each PARENT right where the slip takes it, and wrong where it does not.
    fn change_parents(self, grids: &mut [FileGrid]) {
        let names: Vec<[u8; 8]> = grids.iter().map(|it| it.header.value("SUB_NAME")).collect();
        let rights = [text("NONE"), names[0]];
        for (place, right) in rights.into_iter().enumerate().take(names.len()) {
            let parent = grids[place].header.value_mut("PARENT");
            let takes = match self {
                SubgridSlip::ParentOfTheOnlyGridNotAsked if names.len() == 1 => true,
                SubgridSlip::ParentOfTheSubgridNone => *parent == text("NONE"),
                SubgridSlip::OwnNameForTheParents if place == 1 => *parent == names[1],
                SubgridSlip::NoneTakenForAName if *parent == text("NONE") => true,
                SubgridSlip::ParentNotAsked(part) if (part == Part::First) == (place == 0) => true,
                _ => self.are_alike(*parent, right),
            };
            *parent = right;
            parent[0] ^= u8::from(!takes);
        }
    }

    /// Are two names the same, as the slip compares them?
    fn are_alike(self, one: [u8; 8], other: [u8; 8]) -> bool {
        match self {
            SubgridSlip::SevenBytesOfANameAsked => one[..7] == other[..7],
            SubgridSlip::NamesToTheirFirstSpace => up_to(&one, b' ') == up_to(&other, b' '),
            SubgridSlip::NamesToTheirFirstZero => up_to(&one, 0) == up_to(&other, 0),
            SubgridSlip::NamesInAnyCase => one.eq_ignore_ascii_case(&other),
            _ => one == other,
        }
    }

    /// Makes the shifts fit that the slip does not ask.
    fn change_shifts(self, grids: &mut [FileGrid]) {
        let [_, _] = grids else {
            return;
        };
        match self {
            SubgridSlip::ShiftsNotAsked => make_fit(&mut grids[1].nodes),
            SubgridSlip::ShiftsOfTheFirstGridNotAsked => make_fit(&mut grids[0].nodes),
            _ => {}
        }
    }

    /// The number that the slip gives at once.
    fn number_seen(self, seen: &File) -> Option<Number> {
        match self {
            SubgridSlip::TwoGridsRefused => seen.says_subgrid().then_some(18),
            SubgridSlip::ShiftsBeforeTheSubgridsHeader => {
                let causes = causes(seen);
                let of_first = |it: &Cause| it.part == Part::First;
                let first = causes.iter().filter(|it| of_first(it));
                let only_shifts = first.clone().all(|it| it.is_of_a_node());
                (only_shifts && first.count() > 0).then_some(19)
            }
            _ => None,
        }
    }

    /// What a file gives, as the slip stores it.
    fn store(self, grids: &[Converted], room: &mut FileRoom) {
        let unwritten = room.geometry.to_vec();
        if self == SubgridSlip::BuffersSwapped && grids.len() == 2 {
            room.dense.copy_from_slice(&grids[0].nodes);
            room.nodes.copy_from_slice(&grids[1].nodes);
            return room.store_geometry(grids);
        }
        for (buffer, grid) in [&mut *room.nodes, &mut *room.dense].into_iter().zip(grids) {
            buffer[..grid.nodes.len()].copy_from_slice(&grid.nodes);
        }
        room.store_geometry(grids);
        match (self, grids) {
            (SubgridSlip::LastSixUnwritten, [_]) => {
                room.geometry[6..].copy_from_slice(&unwritten[6..]);
            }
            (SubgridSlip::GeometryOfTheFirstGridTwice, [_, _]) => {
                room.geometry.copy_within(..6, 6);
            }
            (SubgridSlip::GeometriesSwapped, [_, _]) => room.geometry.rotate_left(6),
            (SubgridSlip::NodesOfTheFirstGridTwice, [first, _]) => {
                let again = first.nodes.iter().cycle();
                room.dense
                    .iter_mut()
                    .zip(again)
                    .for_each(|(to, from)| *to = *from);
            }
            (SubgridSlip::RowsByTheFirstGridsColumns, [first, subgrid]) => {
                let columns = [subgrid, first].map(|it| it.geometry.columns as usize);
                let in_file = turned_rows(&subgrid.nodes, columns[0]);
                room.dense
                    .copy_from_slice(&turned_rows(&in_file, columns[1]));
            }
            _ => {}
        }
    }

    /// What the slip writes although a shift of the subgrid is refused, and none of the first grid.
    fn write_before_the_subgrids_shifts(self, seen: &File, room: &mut FileRoom) {
        let mut fit = seen.clone();
        if let Some(mut parts) = Ntv2File::read(&seen.bytes) {
            parts
                .grids
                .iter_mut()
                .skip(1)
                .for_each(|it| make_fit(&mut it.nodes));
            fit.bytes = parts.write();
        }
        let Ok(grids) = fit.converted() else {
            return;
        };
        match self {
            SubgridSlip::NodesWrittenBeforeTheSubgrids => {
                room.nodes.copy_from_slice(&grids[0].nodes);
            }
            SubgridSlip::GeometryWrittenBeforeTheSubgrids => room.store_geometry(&grids[..1]),
            _ => {}
        }
    }
}

/// What stands in a name before a byte, all of it if it has none.
fn up_to(name: &[u8; 8], end: u8) -> &[u8] {
    let mut parts = name.split(|byte| *byte == end);
    parts.next().unwrap_or_default()
}

/// Would question 20 refuse the two grids?
fn misaligned(grids: &[Converted]) -> bool {
    match grids {
        [first, subgrid] => !faults(&first.geometry, &subgrid.geometry).is_empty(),
        _ => false,
    }
}

/// Takes END away where it stands before the subgrid's header too.
fn without_end_between(file: &mut File) {
    let Some(header) = file.subgrid_header() else {
        return;
    };
    if file.bytes[header.start..].starts_with(&text(END_LABEL)) {
        file.bytes.drain(header.start..header.start + 16);
    }
}

/// Puts no shifts in place of unfit ones.
fn make_fit(nodes: &mut [ShiftNode]) {
    let is_fit = |bits: u32| bits % (1 << 31) <= 36_f32.to_bits();
    for node in nodes {
        for shift in node.iter_mut().take(2).filter(|it| !is_fit(**it)) {
            *shift = 0;
        }
    }
}

/// The nodes of a buffer with each row of so many columns turned around.
fn turned_rows(nodes: &[u8], columns: usize) -> Vec<u8> {
    let rows = nodes.chunks(8 * columns);
    rows.flat_map(|row| row.chunks(8).rev())
        .flatten()
        .copied()
        .collect()
}
