//! The parts of an NTv2 file, document 02's notes 4 and 5: its records, and the nodes of its grids.

/// A record, and a node too.
const RECORD_BYTES: usize = 16;
const HEADER_RECORDS: usize = 11;

/// The labels of an overview or of a grid header.
pub type Labels = [&'static str; HEADER_RECORDS];

/// "Labels are NUM_OREC, …, MINOR_T".
pub const OVERVIEW_LABELS: Labels = [
    "NUM_OREC", "NUM_SREC", "NUM_FILE", "GS_TYPE", "VERSION", "SYSTEM_F", "SYSTEM_T", "MAJOR_F",
    "MINOR_F", "MAJOR_T", "MINOR_T",
];
/// "Then SUB_NAME, …, GS_COUNT".
pub const GRID_LABELS: Labels = [
    "SUB_NAME", "PARENT", "CREATED", "UPDATED", "S_LAT", "N_LAT", "E_LONG", "W_LONG", "LAT_INC",
    "LONG_INC", "GS_COUNT",
];
/// "A record END closes the file."
pub const END_LABEL: &str = "END";

/// "Text is filled with spaces."
pub fn text(word: &str) -> [u8; 8] {
    std::array::from_fn(|place| *word.as_bytes().get(place).unwrap_or(&b' '))
}

/// "Records of 16 bytes each, label and value of 8 each".
#[derive(Clone, Copy, Debug, PartialEq, Eq)]
pub struct Record {
    pub label: [u8; 8],
    pub value: [u8; 8],
}

impl Record {
    /// The record that the bytes begin with.
    fn read(bytes: &[u8]) -> Record {
        Record {
            label: std::array::from_fn(|byte| bytes[byte]),
            value: std::array::from_fn(|byte| bytes[8 + byte]),
        }
    }

    fn bytes(&self) -> impl Iterator<Item = u8> {
        self.label.into_iter().chain(self.value)
    }
}

/// "Overview and grid headers have eleven records": each stands at the place of its label.
#[derive(Clone, Copy, Debug, PartialEq, Eq)]
pub struct Records {
    labels: &'static Labels,
    pub records: [Record; HEADER_RECORDS],
}

impl Records {
    pub const BYTES: usize = HEADER_RECORDS * RECORD_BYTES;

    /// Records with these labels, and with values by them.
    pub fn new(labels: &'static Labels, mut value: impl FnMut(&str) -> [u8; 8]) -> Records {
        Records {
            labels,
            records: labels.map(|label| Record {
                label: text(label),
                value: value(label),
            }),
        }
    }

    /// The records that the bytes begin with, which should have these labels; nothing if there are
    /// too few bytes.
    pub fn read(bytes: &[u8], labels: &'static Labels) -> Option<Records> {
        let bytes = bytes.get(..Records::BYTES)?;
        let record = |place| Record::read(&bytes[place * RECORD_BYTES..]);
        Some(Records {
            labels,
            records: std::array::from_fn(record),
        })
    }

    pub fn bytes(&self) -> Vec<u8> {
        self.records.iter().flat_map(Record::bytes).collect()
    }

    /// The value of the record at a label's place.
    pub fn value(&self, label: &str) -> [u8; 8] {
        self.records[self.place_of(label)].value
    }

    pub fn value_mut(&mut self, label: &str) -> &mut [u8; 8] {
        &mut self.records[self.place_of(label)].value
    }

    /// "Counts are i32 and four bytes unread".
    pub fn count(&self, label: &str) -> i32 {
        let [a, b, c, d, ..] = self.value(label);
        i32::from_le_bytes([a, b, c, d])
    }

    /// Sets a count, and not the four bytes behind it.
    pub fn set_count(&mut self, label: &str, count: i32) {
        self.value_mut(label)[..4].copy_from_slice(&count.to_le_bytes());
    }

    /// "Bounds and spacings f64", by their bits.
    pub fn angle(&self, label: &str) -> u64 {
        u64::from_le_bytes(self.value(label))
    }

    /// "A wrong label": is there none?
    pub fn are_labelled(&self) -> bool {
        let labels = self.records.iter().map(|record| record.label);
        labels.eq(self.labels.map(text))
    }

    /// Each record with the label that it should have.
    pub fn labelled(&self) -> impl Iterator<Item = (&'static str, &Record)> {
        self.labels.iter().copied().zip(&self.records)
    }

    fn place_of(&self, label: &str) -> usize {
        let place = self.labels.iter().position(|it| *it == label);
        place.expect("one of the labels")
    }
}

/// "A node is four f32: latitude shift, longitude shift, two accuracies that we drop." By their
/// bits.
pub type ShiftNode = [u32; 4];

/// All whole nodes in the bytes.
pub fn shift_nodes(bytes: &[u8]) -> impl DoubleEndedIterator<Item = ShiftNode> + '_ {
    let float = |node: &[u8], at| u32::from_le_bytes(std::array::from_fn(|byte| node[at + byte]));
    bytes
        .chunks_exact(RECORD_BYTES)
        .map(move |node| [0, 4, 8, 12].map(|at| float(node, at)))
}

/// A grid of a file.
#[derive(Clone, Debug, PartialEq, Eq)]
pub struct FileGrid {
    pub header: Records,
    pub nodes: Vec<ShiftNode>,
}

impl FileGrid {
    /// A header and as many nodes as it counts, which are then taken from the bytes.
    fn take(bytes: &mut &[u8]) -> Option<FileGrid> {
        let header = Records::read(bytes.split_off(..Records::BYTES)?, &GRID_LABELS)?;
        let count = usize::try_from(header.count("GS_COUNT")).ok()?;
        let nodes = bytes.split_off(..count * RECORD_BYTES)?;
        Some(FileGrid {
            header,
            nodes: shift_nodes(nodes).collect(),
        })
    }
}

/// A file: an overview, one grid or "one subgrid after its parent", and END.
#[derive(Clone, Debug, PartialEq, Eq)]
pub struct Ntv2File {
    pub overview: Records,
    pub grids: Vec<FileGrid>,
    pub end: Record,
}

impl Ntv2File {
    /// Nothing where there is "another number of grids", or the file is "not of the exact length".
    pub fn read(file: &[u8]) -> Option<Ntv2File> {
        let mut rest = file;
        let overview = Records::read(rest.split_off(..Records::BYTES)?, &OVERVIEW_LABELS)?;
        let grids = match overview.count("NUM_FILE") {
            1 => vec![FileGrid::take(&mut rest)?],
            2 => vec![FileGrid::take(&mut rest)?, FileGrid::take(&mut rest)?],
            _ => return None,
        };
        (rest.len() == RECORD_BYTES).then(|| Ntv2File {
            overview,
            grids,
            end: Record::read(rest),
        })
    }

    /// The file's bytes, whatever its counts say.
    pub fn write(&self) -> Vec<u8> {
        let mut file = self.overview.bytes();
        for grid in &self.grids {
            file.extend(grid.header.bytes());
            let floats = grid.nodes.iter().flatten();
            file.extend(floats.flat_map(|bits| bits.to_le_bytes()));
        }
        file.extend(self.end.bytes());
        file
    }
}
