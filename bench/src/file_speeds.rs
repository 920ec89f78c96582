//! The measurements of files: seconds of a conversion.

use crate::file_agreement;
use crate::measure::{median_seconds, Work};
use crate::plan::{FilePlan, Size, SIZE_OF_SUBGRIDS};
use crate::table::size_words;
use bench::files::{FileKind, Values};
use bench::{FileConversion, FileRoom};
use std::hint::black_box;

/// All that was measured of a kind of files.
pub struct FileSpeeds {
    pub kind: FileKind,
    pub files: Vec<FileSpeed>,
    /// Files that both implementations refused with the same number.
    pub refused: usize,
}

/// What was measured of a file.
pub struct FileSpeed {
    pub size: Size,
    /// Sizes and values in words.
    pub words: String,
    /// A subgrid's among them.
    nodes: usize,
    /// Of one conversion by the library and by the plain implementation.
    pub seconds: [f64; 2],
}

/// The measurements of each kind.
pub fn measure_all(plan: &FilePlan) -> Vec<FileSpeeds> {
    FileKind::ALL.map(|kind| measure(kind, plan)).into()
}

fn measure(kind: FileKind, plan: &FilePlan) -> FileSpeeds {
    let refused = file_agreement::require_refusals(kind);
    let mut files = Vec::new();
    for &size in plan.sizes {
        for values in Values::ALL {
            let file = kind.made_up(values, size.0, size.1);
            files.push(speed(kind, values, size, size_words(size), &file, plan));
        }
    }
    let size = SIZE_OF_SUBGRIDS;
    for values in Values::ALL {
        if let Some((file, subgrid)) = kind.made_up_nested(values, size.0, size.1) {
            let of_subgrid = size_words((subgrid.rows, subgrid.columns));
            let words = format!("{}, subgrid {of_subgrid}", size_words(size));
            files.push(speed(kind, values, size, words, &file, plan));
        }
    }
    FileSpeeds {
        kind,
        files,
        refused,
    }
}

/// What is measured of a file with grids of these sizes, in words too.
fn speed(
    kind: FileKind,
    values: Values,
    size: Size,
    sizes: String,
    file: &[u8],
    plan: &FilePlan,
) -> FileSpeed {
    let words = format!("{sizes}, {}", kind.value_words(values));
    eprintln!("{} file of {words}", kind.words());
    FileSpeed {
        size,
        words,
        nodes: kind.nodes(file),
        seconds: seconds(kind, file, plan.repeats),
    }
}

/// Seconds of one conversion of a file, after both implementations were seen to agree on it.
fn seconds(kind: FileKind, file: &[u8], repeats: usize) -> [f64; 2] {
    file_agreement::require(kind, file);
    let work = |convert: FileConversion| -> Work {
        let [mut nodes, mut dense] = kind.nodes_lengths(file).map(|it| vec![0; it]);
        Box::new(move || {
            let mut geometry = [0; 12];
            let room = FileRoom {
                nodes: &mut nodes,
                dense: &mut dense,
                geometry: &mut geometry,
            };
            convert(black_box(file), room);
            black_box((&nodes, &dense, &geometry));
        })
    };
    median_seconds(&mut kind.conversions().map(work), repeats)
}

impl FileSpeed {
    /// Nodes converted per second by the library and by the plain implementation.
    pub fn nodes_per_second(&self) -> [f64; 2] {
        self.seconds.map(|seconds| self.nodes as f64 / seconds)
    }
}
