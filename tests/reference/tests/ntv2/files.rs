//! A small file, the same file with a subgrid, and their changes.

use reference::{
    corrections_from_ntv2, text, Converted, FileGrid, Geometry, Ntv2File, Number, Record, Records,
    ShiftNode, END_LABEL, GRID_LABELS, OVERVIEW_LABELS,
};

/// Bytes that are not read.
const UNREAD: [u8; 8] = [0xEE; 8];

/// The small file's name of its grid, of all eight bytes, and its subgrid's.
pub const NAME: [u8; 8] = *b"RDNAP 18";
pub const DENSE_NAME: [u8; 8] = *b"DELFT   ";

/// The labels of the bounds and spacings, with their arcseconds in the small file: two rows and
/// three columns from 52 degrees north and 5 degrees east, 0.01 and 0.0125 degree apart.
pub const ANGLES: [(&str, f64); 6] = [
    ("S_LAT", 187_200.0),
    ("N_LAT", 187_236.0),
    ("E_LONG", -18_090.0),
    ("W_LONG", -18_000.0),
    ("LAT_INC", 36.0),
    ("LONG_INC", 45.0),
];

/// What the small file gives.
pub const GEOMETRY: Geometry = Geometry {
    south: 52_000_000_000,
    west: 5_000_000_000,
    latitude_spacing: 10_000_000,
    longitude_spacing: 12_500_000,
    rows: 2,
    columns: 3,
};

/// Shifts of 1 and −4 arcseconds, and accuracies that are not numbers.
pub const SOME_NODE: ShiftNode = [0x3F80_0000, 0xC080_0000, 0x7FC0_0000, 0xFFFF_FFFF];

/// A grid over the small file's angles.
fn small_grid(name: [u8; 8], parent: [u8; 8]) -> FileGrid {
    let mut grid = FileGrid {
        header: Records::new(&GRID_LABELS, |_| UNREAD),
        nodes: vec![SOME_NODE; 6],
    };
    grid.header.set_count("GS_COUNT", 6);
    *grid.header.value_mut("SUB_NAME") = name;
    *grid.header.value_mut("PARENT") = parent;
    for (label, arcseconds) in ANGLES {
        grid.set_angle(label, arcseconds);
    }
    grid
}

/// The small file, with one grid.
pub fn small_file() -> Ntv2File {
    let mut overview = Records::new(&OVERVIEW_LABELS, |_| UNREAD);
    for (label, count) in [("NUM_OREC", 11), ("NUM_SREC", 11), ("NUM_FILE", 1)] {
        overview.set_count(label, count);
    }
    *overview.value_mut("GS_TYPE") = *b"SECONDS ";
    Ntv2File {
        overview,
        grids: vec![small_grid(NAME, *b"NONE    ")],
        end: Record {
            label: text(END_LABEL),
            value: UNREAD,
        },
    }
}

/// The small file with a subgrid, which is as large as its parent.
pub fn nested_file() -> Ntv2File {
    let mut file = small_file();
    file.overview.set_count("NUM_FILE", 2);
    file.grids.push(small_grid(DENSE_NAME, NAME));
    file
}

/// Changes of a grid.
pub trait Changes {
    fn set_angle(&mut self, label: &str, arcseconds: f64);

    /// Makes the nodes so many, and GS_COUNT too.
    fn set_nodes(&mut self, count: usize);
}

impl Changes for FileGrid {
    fn set_angle(&mut self, label: &str, arcseconds: f64) {
        *self.header.value_mut(label) = arcseconds.to_le_bytes();
    }

    fn set_nodes(&mut self, count: usize) {
        self.nodes.resize(count, SOME_NODE);
        self.header.set_count("GS_COUNT", count as i32);
    }
}

/// What comes of a file if the buffers have room for its nodes.
pub fn converted(file: &Ntv2File) -> Result<Vec<Converted>, Number> {
    let room = |grid: usize| file.grids.get(grid).map_or(0, |it| 8 * it.nodes.len());
    corrections_from_ntv2(&file.write(), [room(0), room(1)])
}

/// What a grid gives after a change of it: the same in the small file, as the parent of a subgrid
/// and as the subgrid.
pub fn grid_after(change: impl Fn(&mut FileGrid)) -> Result<Converted, Number> {
    let [only, parent, dense] =
        [(small_file(), 0), (nested_file(), 0), (nested_file(), 1)].map(|(mut file, grid)| {
            change(&mut file.grids[grid]);
            converted(&file).map(|it| it[grid].clone())
        });
    assert_eq!(only, parent);
    assert_eq!(only, dense);
    only
}

/// The number that a file gets after a change of its grid, of its parent grid or of its subgrid.
pub fn number_after(change: impl Fn(&mut FileGrid)) -> Option<Number> {
    grid_after(change).err()
}

/// The number that a file gets after a change, with one grid and with a subgrid.
pub fn file_number_after(change: impl Fn(&mut Ntv2File)) -> Option<Number> {
    let [one, two] = [small_file(), nested_file()].map(|mut file| {
        change(&mut file);
        converted(&file).err()
    });
    assert_eq!(one, two);
    one
}

/// The latitude and the longitude corrections in a buffer, in its order.
pub fn corrections(converted: &Converted) -> Vec<[i32; 2]> {
    let number = |bytes: &[u8]| i32::from_le_bytes(bytes.try_into().expect("four bytes"));
    let nodes = converted.nodes.chunks_exact(8);
    nodes
        .map(|node| [number(&node[..4]), number(&node[4..])])
        .collect()
}
