//! NTv2 files: the conversion of document 02's notes 4 and 5.

use crate::files::{Converted, Nearest};
use crate::float::{nearest, turned, Width, DOUBLE, SINGLE};
use crate::grid::CORRECTION_LIMIT;
use crate::ntv2_file::{text, FileGrid, Ntv2File, Records, ShiftNode, END_LABEL};
use crate::{ask, within, Fraction, Geometry, Number};

const CORRECTION_NODE_BYTES: i128 = 8;

/// "Bounds, spacings and shifts are arcseconds": 3,600 are a degree of 10^9 nd.
pub const FROM_ARCSECONDS: Fraction = Fraction::new(2_500_000, 9);

/// "The sign turned before Note 2's rounding".
fn nearest_turned(width: Width, bits: u64, scale: Fraction) -> Option<i128> {
    nearest(width, turned(width, bits), scale)
}

/// An NTv2 file to the correction nodes of an image, for two lent buffers of so many bytes: the
/// file's grid, or the parent and then its subgrid.
pub fn corrections_from_ntv2(
    file: &[u8],
    buffer_lengths: [usize; 2],
) -> Result<Vec<Converted>, Number> {
    convert_ntv2(file, buffer_lengths, nearest, nearest_turned)
}

/// The same with any way to the nearest whole number, and with any for longitudes and their shifts,
/// whose sign is turned.
pub fn convert_ntv2(
    file: &[u8],
    buffer_lengths: [usize; 2],
    nearest: impl Nearest,
    turned: impl Nearest,
) -> Result<Vec<Converted>, Number> {
    let file = Ntv2File::read(file).ok_or(18)?;
    ask(overview_fits(&file.overview), 18)?;
    ask(file.end.label == text(END_LABEL), 18)?;
    ask(parents_fit(&file.grids), 18)?;
    let headers = file.grids.iter().map(|it| &it.header);
    let geometries: Option<Vec<Geometry>> = headers
        .map(|header| header.geometry(&nearest, &turned))
        .collect();
    let geometries = geometries.ok_or(18)?;
    ask(buffers_fit(&geometries, buffer_lengths), 18)?;
    let grids = file.grids.iter().zip(geometries);
    grids
        .map(|(grid, geometry)| converted(&grid.nodes, geometry, &nearest, &turned))
        .collect()
}

/// "Refusal 18, first: a wrong label, a type not SECONDS, a record count not 11". The number of
/// grids was asked when the file was read.
fn overview_fits(overview: &Records) -> bool {
    overview.are_labelled()
        && overview.count("NUM_OREC") == 11
        && overview.count("NUM_SREC") == 11
        && overview.value("GS_TYPE") == text("SECONDS")
}

/// "PARENT is NONE for the first grid, the first's name for the subgrid, else 18."
fn parents_fit(grids: &[FileGrid]) -> bool {
    let names = grids.iter().map(|it| it.header.value("SUB_NAME"));
    let wanted = [text("NONE")].into_iter().chain(names);
    let parents = grids.iter().map(|it| it.header.value("PARENT"));
    parents.zip(wanted).all(|(parent, wanted)| parent == wanted)
}

/// "A buffer not of the exact length": "its nodes to a second buffer (empty for one grid)".
fn buffers_fit(geometries: &[Geometry], lengths: [usize; 2]) -> bool {
    let wanted = |grid: usize| geometries.get(grid).map_or(0, Geometry::nodes);
    [0, 1].map(|grid| CORRECTION_NODE_BYTES * wanted(grid)) == lengths.map(|it| it as i128)
}

impl Records {
    /// A grid's header: the latitude axis and the longitude axis in our sign and order, "longitudes
    /// positive to the west". Nothing if a label is wrong, or the geometry is "not finite, not
    /// whole, against its node count, or outside questions 3 to 5".
    fn geometry(&self, nearest: &impl Nearest, turned: &impl Nearest) -> Option<Geometry> {
        let nd = |label| nearest(DOUBLE, self.angle(label), FROM_ARCSECONDS);
        let turned_nd = |label| turned(DOUBLE, self.angle(label), FROM_ARCSECONDS);
        let geometry = Geometry::within_questions_3_to_5(
            axis(nd("S_LAT")?, nd("N_LAT")?, nd("LAT_INC")?)?,
            axis(turned_nd("W_LONG")?, turned_nd("E_LONG")?, nd("LONG_INC")?)?,
        )?;
        let counted = i128::from(self.count("GS_COUNT")) == geometry.nodes();
        (self.are_labelled() && counted).then_some(geometry)
    }
}

/// "Each bound difference is then a whole number of spacings": the axis's bound, spacing and count.
fn axis(low: i128, high: i128, spacing: i128) -> Option<[i128; 3]> {
    let whole = spacing > 0 && (high - low) % spacing == 0;
    whole.then(|| [low, spacing, (high - low) / spacing + 1])
}

/// A grid's correction nodes: "nodes run from the south-east, westward first", ours in each row
/// eastward.
fn converted(
    nodes: &[ShiftNode],
    geometry: Geometry,
    nearest: &impl Nearest,
    turned: &impl Nearest,
) -> Result<Converted, Number> {
    let corrections = corrections(nodes, nearest, turned)?;
    let rows = corrections.chunks_exact(geometry.columns as usize);
    let ours = rows.flat_map(|row| row.iter().rev()).flatten();
    let nodes = ours.flat_map(|correction| correction.to_le_bytes());
    Ok(Converted {
        geometry,
        nodes: nodes.collect(),
    })
}

/// "Refusal 19, second: a shift not finite, or a correction beyond its limit." Else the latitude
/// and the longitude correction of each of the file's nodes.
fn corrections(
    nodes: &[ShiftNode],
    nearest: &impl Nearest,
    turned: &impl Nearest,
) -> Result<Vec<[i32; 2]>, Number> {
    let fit = |correction: Option<i128>| {
        let correction = correction.filter(|it| within(*it, CORRECTION_LIMIT));
        correction.map(|it| it as i32).ok_or(19)
    };
    let corrections = nodes.iter().map(|[latitude, longitude, ..]| {
        Ok([
            fit(nearest(SINGLE, (*latitude).into(), FROM_ARCSECONDS))?,
            fit(turned(SINGLE, (*longitude).into(), FROM_ARCSECONDS))?,
        ])
    });
    corrections.collect()
}
