//! Files with other bytes wherever they have some that are not read.

use crate::random::Random;
use crate::{File, Format, GridOfFile, Part};
use reference::Records;

impl File {
    /// An NTv2 file that has its records, with other bytes in place of those that are not read.
    pub fn with_other_unread_bytes(&self, random: &mut Random) -> Option<File> {
        if self.format == Format::Vdatum {
            return None;
        }
        let grids = self.grids()?;
        let mut other = self.clone();
        let (any, none) = (random.draw().to_le_bytes(), *b"NONE    ");
        let filling = random.pick(&[[0; 8], [0xFF; 8], none, any, any]);
        for (place, piece) in other.bytes.chunks_mut(16).enumerate() {
            let from = first_unread(16 * place, &grids);
            if let Some(unread) = piece.get_mut(from..) {
                unread.copy_from_slice(&filling[..unread.len()]);
            }
        }
        Some(other)
    }
}

/// From which byte on the record or node that begins at a byte of the file is not read.
fn first_unread(at: usize, grids: &[GridOfFile]) -> usize {
    if at < Records::BYTES {
        return match at / 16 {
            // Counts, and four bytes behind them: NUM_OREC, NUM_SREC and NUM_FILE.
            0..=2 => 12,
            // GS_TYPE.
            3 => 16,
            _ => 8,
        };
    }
    for grid in grids {
        let header = grid.header_bytes();
        if header.contains(&at) {
            return first_unread_of_header((at - header.start) / 16, grid.part, grids.len());
        }
    }
    // The accuracies of nodes, and END's value.
    8
}

/// The same of a record of a grid's header, in a file with so many grids.
fn first_unread_of_header(record: usize, part: Part, grids: usize) -> usize {
    match record {
        // SUB_NAME, which is read where a subgrid names its parent.
        0 if part == Part::First && grids == 2 => 16,
        0 => 8,
        // CREATED and UPDATED.
        2 | 3 => 8,
        // GS_COUNT.
        10 => 12,
        // PARENT, and bounds and spacings.
        _ => 16,
    }
}
