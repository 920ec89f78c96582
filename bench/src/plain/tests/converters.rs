//! Figures of the converters between kinds 0 and 3: the bytes, and the refusals in their order.

use super::{correction, GEOMETRY};
use crate::grid::{Geometry, Grid};
use crate::plain::{nodes_from_planes, planes_from_nodes};

/// Fewer than the corrections.
const HEIGHTS: Geometry = Geometry {
    rows: 2,
    columns: 3,
    ..GEOMETRY
};

/// The same grid in nodes and in planes.
fn images() -> [Vec<u8>; 2] {
    let uneven = |row, column: u32| correction(row, column).map(|it| it + column as i32);
    let grid = || Grid::new(GEOMETRY, Some(HEIGHTS), uneven, |row, _| 7 + row as i32);
    [grid().image, grid().in_planes().image]
}

/// A call's number, and what it leaves in a buffer of so many bytes.
fn called(convert: fn(&[u8], &mut [u8]) -> i64, image: &[u8], length: usize) -> (i64, Vec<u8>) {
    let mut buffer = vec![0xEE; length];
    (convert(image, &mut buffer), buffer)
}

#[test]
fn each_kind_becomes_the_other() {
    let [nodes, planes] = images();
    let length = 8 * 9 + 4 * 6 + 80;
    assert_eq!([nodes.len(), planes.len()], [length; 2]);
    assert_ne!(nodes[..72], planes[..72]);
    assert_eq!(nodes[72..length - 8], planes[72..length - 8]);
    for before in [&[][..], &[9; 5]] {
        let found = called(planes_from_nodes, &[before, &nodes].concat(), length);
        assert_eq!(found, (0, planes.clone()));
        let found = called(nodes_from_planes, &[before, &planes].concat(), length);
        assert_eq!(found, (0, nodes.clone()));
    }
}

/// No node is asked.
#[test]
fn nodes_beyond_their_limits_are_converted() {
    let [mut nodes, mut planes] = images();
    let length = nodes.len();
    nodes[4..8].fill(0x7F);
    planes[36..40].fill(0x7F);
    assert_eq!(called(planes_from_nodes, &nodes, length), (0, planes));
}

/// The image's number, then 2, then 14; the buffer is unchanged.
#[test]
fn refusals_in_their_order() {
    let [nodes, planes] = images();
    let length = nodes.len();
    let refused = |convert, image: &[u8], length| {
        let (number, buffer) = called(convert, image, length);
        assert!(buffer.iter().all(|byte| *byte == 0xEE));
        number
    };
    let first = Grid::of_zeros(GEOMETRY, None).image;
    let mut unknown = nodes.clone();
    unknown[length - 8] = 4;
    let mut unfit = planes.clone();
    unfit[length - 56] = 1;
    for convert in [planes_from_nodes, nodes_from_planes] {
        assert_eq!(refused(convert, &nodes[length - 39..], 0), 1);
        assert_eq!(refused(convert, &unknown, length), 2);
        assert_eq!(refused(convert, &unfit, 0), 3);
        assert_eq!(refused(convert, &nodes[1..], length), 6);
        assert_eq!(refused(convert, &first, first.len()), 2);
    }
    assert_eq!(refused(planes_from_nodes, &planes, 0), 2);
    assert_eq!(refused(nodes_from_planes, &nodes, length), 2);
    for wrong in [0, length - 1, length + 1] {
        assert_eq!(refused(planes_from_nodes, &nodes, wrong), 14);
        assert_eq!(refused(nodes_from_planes, &planes, wrong), 14);
    }
    let longer = [&[9; 5], &nodes[..]].concat();
    assert_eq!(refused(planes_from_nodes, &longer, length + 5), 14);
}
