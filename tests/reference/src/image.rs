//! The image of either edition: questions 1 to 6 and 20, where its nodes stand, and its writing.

use crate::grid::{Arrangement, CORRECTION_LIMIT, HEIGHT_LIMIT};
use crate::{ask, DenseTrailer, Geometry, Grid, Number, Trailer, TwoGridTrailer};

/// An image that answered yes to questions 1 to 6 and, if it has a dense grid, to 20.
#[derive(Clone, Copy, Debug)]
pub enum Image<'a> {
    /// Edition 1: "A node is 12 bytes: latitude correction and longitude correction (i32, nd),
    /// quasi-geoid height (i32, units)."
    OneGrid(Grid<'a, 3>),
    /// Edition 2: "correction nodes of 8 bytes, then height nodes of 4 bytes". Kind 1 has dense
    /// nodes too. Kind 2, "laid out as kind 0", is unbounded: it has an answer for "fixes past the
    /// edge" too. In kind 3 the corrections stand in planes.
    TwoGrids {
        corrections: Grid<'a, 2>,
        heights: Grid<'a, 1>,
        dense: Option<Grid<'a, 2>>,
        unbounded: bool,
    },
}

/// Questions 1 to 6, in this order, and "20, after 6 with the same effect".
pub fn open_image(bytes: &[u8]) -> Result<Image<'_>, Number> {
    // "1. Is the length at least 40? Else 1."
    let trailer = Trailer::read(bytes).ok_or(1)?;
    // "2. Is the edition 1? Else 2." Or, since document 02's note 1, 2: it ends both trailers.
    match trailer.edition {
        1 => open_one_grid(bytes, &trailer),
        2 => open_two_grids(bytes),
        _ => Err(2),
    }
}

/// Edition 1's questions 3 to 6.
fn open_one_grid<'a>(bytes: &'a [u8], trailer: &Trailer) -> Result<Image<'a>, Number> {
    geometry_questions(&[trailer.geometry])?;
    // "6. Is back equal to 12 × rows × columns + 40, and not above the length? Else 6."
    let values = values_at(bytes, trailer.back, trailer.right_back())?;
    Ok(Image::OneGrid(Grid {
        geometry: trailer.geometry,
        values,
        arrangement: Arrangement::Nodes,
        limits: [CORRECTION_LIMIT, CORRECTION_LIMIT, HEIGHT_LIMIT],
    }))
}

/// Edition 2's questions 1 to 6, and 20.
fn open_two_grids(bytes: &[u8]) -> Result<Image<'_>, Number> {
    // "Below 80 bytes is a 1, an unknown kind a 2."
    let trailer = TwoGridTrailer::read(bytes).ok_or(1)?;
    let dense = match trailer.kind {
        0 | 2 | 3 => None,
        // "A length below 36 plus the correction nodes' back is a 1."
        1 => Some(DenseTrailer::read(bytes, &trailer).ok_or(1)?),
        _ => return Err(2),
    };
    let dense_geometry = dense.map(|it| it.geometry);
    let both = [trailer.corrections, trailer.heights];
    let geometries: Vec<Geometry> = both.into_iter().chain(dense_geometry).collect();
    geometry_questions(&geometries)?;
    let right = trailer.right_correction_back();
    let nodes = correction_grid(bytes, trailer.corrections, trailer.correction_back, right)?;
    let corrections = Grid {
        arrangement: trailer.arrangement(),
        ..nodes
    };
    let heights = height_grid(bytes, &trailer)?;
    let dense =
        dense.map(|it| correction_grid(bytes, it.geometry, it.back, it.right_back(&trailer)));
    let dense = dense.transpose()?;
    if let Some(dense) = &dense {
        // "Refusal 20, after 6 with the same effect: the dense grid is misaligned or reaches
        // outside the coarse one."
        ask(dense.geometry.lies_aligned_in(&corrections.geometry), 20)?;
    }
    Ok(Image::TwoGrids {
        corrections,
        heights,
        dense,
        unbounded: trailer.kind == 2,
    })
}

/// A grid of corrections in nodes, coarse or dense, after its question 6.
fn correction_grid(
    bytes: &[u8],
    geometry: Geometry,
    back: u32,
    right_back: i128,
) -> Result<Grid<'_, 2>, Number> {
    Ok(Grid {
        geometry,
        values: values_at(bytes, back, right_back)?,
        arrangement: Arrangement::Nodes,
        limits: [CORRECTION_LIMIT; 2],
    })
}

/// The grid of heights, after its question 6.
fn height_grid<'a>(bytes: &'a [u8], trailer: &TwoGridTrailer) -> Result<Grid<'a, 1>, Number> {
    Ok(Grid {
        geometry: trailer.heights,
        values: values_at(bytes, trailer.height_back, trailer.right_height_back())?,
        arrangement: Arrangement::Nodes,
        limits: [HEIGHT_LIMIT],
    })
}

/// Questions 3 to 5: "put to both grids, the correction grid first in each", and "come to the
/// dense grid last in each".
fn geometry_questions(geometries: &[Geometry]) -> Result<(), Number> {
    ask(geometries.iter().all(Geometry::counts_fit), 3)?;
    ask(geometries.iter().all(Geometry::spacings_fit), 4)?;
    ask(geometries.iter().all(Geometry::bounds_fit), 5)
}

/// Question 6: is back the right one, and not above the length? The bytes from the first node
/// on: "Back is the distance in bytes from the image's end to the first node."
fn values_at(bytes: &[u8], back: u32, right_back: i128) -> Result<&[u8], Number> {
    ask(i128::from(back) == right_back, 6)?;
    let first_node = bytes.len().checked_sub(back as usize).ok_or(6)?;
    Ok(&bytes[first_node..])
}

/// The bytes of an edition 1 image: the nodes, southern row first and each row from west to
/// east, and the trailer.
pub fn write_image(nodes: &[[i32; 3]], trailer: &Trailer) -> Vec<u8> {
    let mut bytes = node_bytes(nodes);
    bytes.extend(trailer.write());
    bytes
}

/// The bytes of an edition 2 image: correction nodes, height nodes, trailer.
pub fn write_two_grids(
    corrections: &[[i32; 2]],
    heights: &[[i32; 1]],
    trailer: &TwoGridTrailer,
) -> Vec<u8> {
    [node_bytes(corrections), rest(heights, trailer)].concat()
}

/// The same of kind 3: "all latitude corrections, then all longitude corrections, then the heights".
pub fn write_planes(
    corrections: &[[i32; 2]],
    heights: &[[i32; 1]],
    trailer: &TwoGridTrailer,
) -> Vec<u8> {
    let plane = |value: usize| {
        let values: Vec<[i32; 1]> = corrections.iter().map(|node| [node[value]]).collect();
        node_bytes(&values)
    };
    [plane(0), plane(1), rest(heights, trailer)].concat()
}

/// What follows the corrections.
fn rest(heights: &[[i32; 1]], trailer: &TwoGridTrailer) -> Vec<u8> {
    [node_bytes(heights), trailer.write()].concat()
}

/// The bytes of a kind 1 image: dense nodes, their 36 bytes, and the other nodes with the trailer,
/// which says kind 1.
pub fn write_dense(dense: &[[i32; 2]], dense_trailer: &DenseTrailer, rest: &[u8]) -> Vec<u8> {
    let mut bytes = node_bytes(dense);
    bytes.extend(dense_trailer.write());
    bytes.extend(rest);
    bytes
}

fn node_bytes<const VALUES: usize>(nodes: &[[i32; VALUES]]) -> Vec<u8> {
    let mut bytes = Vec::with_capacity(4 * VALUES * nodes.len());
    for value in nodes.iter().flatten() {
        bytes.extend_from_slice(&value.to_le_bytes());
    }
    bytes
}
