//! What both programs of the bench share: made-up grids, fixes and files, and the implementations
//! of each call behind one interface.

pub mod converters;
pub mod files;
pub mod fixes;
pub mod floating;
pub mod grid;
pub mod gsb;
pub mod gtx;
pub mod library;
pub mod plain;

pub use binding::Way;
pub use grid::Edition;

/// A grid check of an image, that writes its findings and gives its number.
pub type GridCheck = fn(&[u8], &mut [i64; 6]) -> i64;

/// What the conversion of a file is lent to write to: the nodes, those of a subgrid, and the
/// geometry, six numbers for each of two grids. VDatum files have no subgrid, and their conversion
/// is lent the first six numbers alone.
pub struct FileRoom<'a> {
    pub nodes: &'a mut [u8],
    pub dense: &'a mut [u8],
    pub geometry: &'a mut [i64; 12],
}

/// A conversion of a file, that writes the nodes and the geometry and gives its number.
pub type FileConversion = fn(&[u8], FileRoom) -> i64;

/// The implementations of the list call over an image.
#[derive(Clone, Copy, Debug, PartialEq, Eq)]
pub enum Implementation {
    Library,
    Plain,
    Floating,
}

impl Implementation {
    pub const ALL: [Implementation; 3] = [
        Implementation::Library,
        Implementation::Plain,
        Implementation::Floating,
    ];

    /// One list call: its number.
    pub fn list(self, way: Way, image: &[u8], fixes: &[i64], answers: &mut [i64]) -> i64 {
        match self {
            Implementation::Library => library::list(way, image, fixes, answers),
            Implementation::Plain => plain::list(way, image, fixes, answers),
            Implementation::Floating => floating::list(way, image, fixes, answers),
        }
    }
}
