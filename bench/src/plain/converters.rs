//! The converters between kinds 0 and 3 of edition 2.

use super::second::open_kind;
use super::{is_of_kind, list, Number};
use crate::Way;

/// An image of kind 3 from one of kind 0.
pub fn planes_from_nodes(image: &[u8], buffer: &mut [u8]) -> Number {
    convert(image, buffer, [0, 3], |nodes, planes| {
        let (latitudes, longitudes) = planes.split_at_mut(nodes.len() / 2);
        let pairs = latitudes
            .chunks_exact_mut(4)
            .zip(longitudes.chunks_exact_mut(4));
        for (node, (latitude, longitude)) in nodes.chunks_exact(8).zip(pairs) {
            latitude.copy_from_slice(&node[..4]);
            longitude.copy_from_slice(&node[4..]);
        }
    })
}

/// An image of kind 0 from one of kind 3.
pub fn nodes_from_planes(image: &[u8], buffer: &mut [u8]) -> Number {
    convert(image, buffer, [3, 0], |planes, nodes| {
        let (latitudes, longitudes) = planes.split_at(nodes.len() / 2);
        let pairs = latitudes.chunks_exact(4).zip(longitudes.chunks_exact(4));
        for (node, (latitude, longitude)) in nodes.chunks_exact_mut(8).zip(pairs) {
            node[..4].copy_from_slice(latitude);
            node[4..].copy_from_slice(longitude);
        }
    })
}

/// The refusals, then the image from its first node on with its corrections arranged and its kind
/// changed.
fn convert(
    image: &[u8],
    buffer: &mut [u8],
    [from, to]: [u8; 2],
    arrange: impl Fn(&[u8], &mut [u8]),
) -> Number {
    if !is_of_kind(image, from) {
        // The image's number comes first: an empty list puts the image's questions alone.
        let number = list(Way::Out, image, &[], &mut []);
        return if number == 0 { 2 } else { number };
    }
    let grid = match open_kind(image, from.into()) {
        Ok(grid) => grid,
        Err(number) => return number,
    };
    if buffer.len() != grid.length() {
        return 14;
    }
    let (corrections, others) = buffer.split_at_mut(grid.corrections.nodes.len());
    arrange(grid.corrections.nodes, corrections);
    others.copy_from_slice(&image[image.len() - others.len()..]);
    others[others.len() - 8] = to;
    0
}
