//! A straightforward implementation of document 01, of edition 2 of its image in all its kinds, and of
//! VDatum and NTv2 files (document 02, notes 1, 2, 4 to 6 and 8), over i128, written for speed.

mod axis;
mod converters;
mod dense;
mod file_geometry;
mod first;
mod fix;
mod floats;
mod nodes;
mod ntv2;
mod planes;
mod second;
mod slopes;
#[cfg(test)]
mod tests;
mod trailer;
mod two_grids;
mod unbounded;
mod vdatum;

pub use converters::{nodes_from_planes, planes_from_nodes};
pub use ntv2::corrections_from_ntv2;
pub use vdatum::heights_from_vdatum;

use crate::Way;

/// The number of a question that has the answer no.
type Number = i64;

pub fn list(way: Way, image: &[u8], fixes: &[i64], answers: &mut [i64]) -> Number {
    if is_of_kind(image, 1) {
        dense::list(way, image, fixes, answers)
    } else if is_of_kind(image, 2) {
        unbounded::list(way, image, fixes, answers)
    } else if is_of_kind(image, 3) {
        planes::list(way, image, fixes, answers)
    } else if is_second(image) {
        second::list(way, image, fixes, answers)
    } else {
        first::list(way, image, fixes, answers)
    }
}

pub fn grid_check(image: &[u8], findings: &mut [i64; 6]) -> Number {
    if is_of_kind(image, 1) {
        dense::grid_check(image, findings)
    } else if is_of_kind(image, 2) {
        unbounded::grid_check(image, findings)
    } else if is_of_kind(image, 3) {
        planes::grid_check(image, findings)
    } else if is_second(image) {
        second::grid_check(image, findings)
    } else {
        first::grid_check(image, findings)
    }
}

/// Whether an image is asked edition 2's questions: it is long enough to have an edition, the last
/// number of both trailers, and that is 2. Any other is asked edition 1's.
fn is_second(image: &[u8]) -> bool {
    image.len() >= 40 && image.ends_with(&2_u32.to_le_bytes())
}

/// Whether it is asked the questions of a kind, which come after the length's: it has edition 2's
/// trailer, and that ends in this kind.
fn is_of_kind(image: &[u8], kind: u8) -> bool {
    image.len() >= 80 && image.ends_with(&[kind, 0, 0, 0, 2, 0, 0, 0])
}

/// Writes the findings and gives 0, or gives the number.
fn found(findings: &mut [i64; 6], checked: Result<[i64; 6], Number>) -> Number {
    match checked {
        Ok(steps) => {
            *findings = steps;
            0
        }
        Err(number) => number,
    }
}
