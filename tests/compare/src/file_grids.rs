//! What a file says of its grids, as far as a damaged one does.

use crate::rounded_axis::RoundedAxis;
use crate::{File, Format};
use reference::{
    height_bits, shift_nodes, turned, Axis, FileHeader, Records, DOUBLE, GRID_LABELS,
    OVERVIEW_LABELS, SINGLE,
};
use std::ops::Range;

/// A float of a file by its name and its bits, in our sign: NTv2's longitudes and their shifts are
/// turned.
#[derive(Clone, Copy, Debug, PartialEq, Eq)]
pub struct Float {
    pub name: &'static str,
    pub bits: u64,
}

/// What a header says of an axis. VDatum gives the count of lines, NTv2 the other bound.
#[derive(Clone, Copy, Debug, PartialEq, Eq)]
pub struct FileAxis {
    pub axis: Axis,
    pub low: Float,
    pub high: Option<Float>,
    pub spacing: Float,
    pub lines: Option<i32>,
}

impl FileAxis {
    /// Its floats, the spacing last.
    pub fn floats(&self) -> impl Iterator<Item = Float> {
        [self.low]
            .into_iter()
            .chain(self.high)
            .chain([self.spacing])
    }
}

/// A part of a file.
#[derive(Clone, Copy, Debug, PartialEq, Eq, PartialOrd, Ord)]
pub enum Part {
    /// The first grid, with all that is the file's own: overview, end and length.
    First,
    /// The subgrid.
    Subgrid,
}

/// A grid whose header the file has.
#[derive(Clone, Debug, PartialEq, Eq)]
pub struct GridOfFile {
    pub part: Part,
    pub axes: [FileAxis; 2],
    /// The header of an NTv2 file's grid.
    pub header: Option<Records>,
    /// Where the nodes stand: as many bytes as there are, unless a subgrid follows.
    pub nodes: Range<usize>,
}

impl GridOfFile {
    /// Where the header of an NTv2 file's grid stands.
    pub fn header_bytes(&self) -> Range<usize> {
        self.nodes.start - Records::BYTES..self.nodes.start
    }

    /// How many nodes the axes ask for, where that can be said.
    pub fn nodes_asked_for(&self, format: Format) -> Option<i128> {
        let scale = format.layout().angle_scale;
        match self.axes.map(|axis| RoundedAxis::of(&axis, scale).lines) {
            [Some(rows @ 0..), Some(columns @ 0..)] => Some(rows * columns),
            _ => None,
        }
    }
}

impl File {
    /// The overview of an NTv2 file that is long enough to have one.
    pub fn overview(&self) -> Option<Records> {
        let overview = Records::read(&self.bytes, &OVERVIEW_LABELS);
        overview.filter(|_| self.format == Format::Ntv2)
    }

    /// Does the file say that it has a subgrid? One that says neither 1 grid nor 2 is taken to have
    /// one if it comes with a buffer for it.
    pub fn says_subgrid(&self) -> bool {
        match self.overview().map(|it| it.count("NUM_FILE")) {
            None | Some(1) => false,
            Some(2) => true,
            Some(_) => self.buffer_lengths[1] > 0,
        }
    }

    /// Its grids whose headers stand where they should; nothing if it is too short for the headers
    /// of one grid and its end.
    pub fn grids(&self) -> Option<Vec<GridOfFile>> {
        match self.format {
            Format::Vdatum => FileHeader::read(&self.bytes).map(|header| {
                vec![GridOfFile {
                    part: Part::First,
                    axes: vdatum_axes(header),
                    header: None,
                    nodes: self.format.layout().headers..self.bytes.len(),
                }]
            }),
            Format::Ntv2 => self.ntv2_grids(),
        }
    }

    /// A subgrid is looked for behind as many nodes as the first grid's axes ask for, or else as
    /// its header counts.
    fn ntv2_grids(&self) -> Option<Vec<GridOfFile>> {
        let mut first = self.ntv2_grid(Part::First, Records::BYTES)?;
        if !self.says_subgrid() {
            return Some(vec![first]);
        }
        let counted = first.header.map(|it| i128::from(it.count("GS_COUNT")));
        let nodes = first.nodes_asked_for(self.format).or(counted);
        let node = self.format.layout().node as i128;
        let bytes = nodes.and_then(|it| usize::try_from(node * it).ok());
        let behind = bytes.map(|it| first.nodes.start + it);
        let subgrid = behind.and_then(|at| self.ntv2_grid(Part::Subgrid, at));
        first.nodes.end = behind.map_or(first.nodes.end, |at| first.nodes.end.min(at));
        Some([first].into_iter().chain(subgrid).collect())
    }

    /// The grid whose header begins at a byte, if the file has it before its end.
    fn ntv2_grid(&self, part: Part, at: usize) -> Option<GridOfFile> {
        let end = self.bytes.len().checked_sub(self.format.layout().end)?;
        let header = Records::read(self.bytes.get(at..end)?, &GRID_LABELS)?;
        Some(GridOfFile {
            part,
            axes: ntv2_axes(header),
            header: Some(header),
            nodes: at + Records::BYTES..end,
        })
    }

    /// Where the header of an NTv2 file's subgrid stands, if it has one.
    pub fn subgrid_header(&self) -> Option<Range<usize>> {
        let grids = self.grids()?;
        let subgrid = grids.iter().find(|it| it.part == Part::Subgrid);
        subgrid.map(GridOfFile::header_bytes)
    }

    /// The values of all whole nodes of a grid.
    pub fn values_of(&self, grid: &GridOfFile) -> Box<dyn DoubleEndedIterator<Item = Float> + '_> {
        let float = |name, bits: u32| Float {
            name,
            bits: bits.into(),
        };
        if self.format == Format::Vdatum {
            return Box::new(height_bits(&self.bytes).map(move |it| float("height", it)));
        }
        let nodes = &self.bytes[grid.nodes.clone()];
        Box::new(shift_nodes(nodes).flat_map(move |node| {
            let longitude = float("longitude shift", node[1]);
            [
                float("latitude shift", node[0]),
                Float {
                    bits: turned(SINGLE, longitude.bits),
                    ..longitude
                },
            ]
        }))
    }
}

fn vdatum_axes(header: FileHeader) -> [FileAxis; 2] {
    let axis = |axis, [low, spacing]: [(&'static str, u64); 2], lines| {
        let [low, spacing] = [low, spacing].map(|(name, bits)| Float { name, bits });
        FileAxis {
            axis,
            low,
            high: None,
            spacing,
            lines: Some(lines),
        }
    };
    let (p, q) = (header.latitude_spacing, header.longitude_spacing);
    let latitude = [("south", header.south), ("latitude spacing", p)];
    let longitude = [("west", header.west), ("longitude spacing", q)];
    [
        axis(Axis::Latitude, latitude, header.rows),
        axis(Axis::Longitude, longitude, header.columns),
    ]
}

fn ntv2_axes(header: Records) -> [FileAxis; 2] {
    let float = |name| Float {
        name,
        bits: header.angle(name),
    };
    let turned = |name| Float {
        name,
        bits: turned(DOUBLE, header.angle(name)),
    };
    let axis = |axis, low, high, spacing| FileAxis {
        axis,
        low,
        high: Some(high),
        spacing,
        lines: None,
    };
    [
        axis(
            Axis::Latitude,
            float("S_LAT"),
            float("N_LAT"),
            float("LAT_INC"),
        ),
        axis(
            Axis::Longitude,
            turned("W_LONG"),
            turned("E_LONG"),
            float("LONG_INC"),
        ),
    ]
}
