//! The nodes: their order, their bytes in the buffer, and each cause of 17 at each node.

use crate::files::{converted, converted_nodes, file_of, header, SOME_HEIGHT};

const NEGATIVE: u32 = 1 << 31;
/// The last f32 that is rounded to 1,000,000 units, and the first one past it.
const LAST_FIT: u32 = 0x42C8_0006;
const FIRST_UNFIT: u32 = 0x42C8_0007;

/// The number or height of one node among others that are fit.
fn height_at(node: usize, bits: u32) -> Result<i32, i64> {
    let mut nodes = [SOME_HEIGHT; 6];
    nodes[node] = bits;
    converted_nodes(nodes).map(|heights| heights[node])
}

#[test]
fn nodes_keep_their_order() {
    let metres = [1_f32, 2.0, -3.0, 0.031_25, -0.031_25, 100.0];
    let heights = converted_nodes(metres.map(f32::to_bits));
    let units = vec![10_000, 20_000, -30_000, 313, -312, 1_000_000];
    assert_eq!(heights, Ok(units));
}

#[test]
fn nodes_are_big_endian_in_the_file_and_little_endian_in_the_buffer() {
    let mut file = file_of(&header(), &[SOME_HEIGHT; 6]);
    // 43.5 metres are 435,000 units, 6 A3 38 in hexadecimal.
    file[40..44].copy_from_slice(&[0x42, 0x2E, 0, 0]);
    // −1/32 metre is −312 units.
    file[60..64].copy_from_slice(&[0xBD, 0, 0, 0]);
    let nodes = converted(&file).expect("a fit file").nodes;
    assert_eq!(nodes[..4], [0x38, 0xA3, 6, 0]);
    assert_eq!(nodes[20..], [0xC8, 0xFE, 0xFF, 0xFF]);
    assert_eq!(nodes.len(), 24);
}

#[test]
fn zeros_and_subnormals_are_heights_of_0() {
    for size in [0, 1, 0x007F_FFFF, 0x0080_0000] {
        assert_eq!(height_at(0, size), Ok(0));
        assert_eq!(height_at(5, NEGATIVE + size), Ok(0));
    }
}

/// Files have −88.8888 metres where there is no height. Note 2 makes it a height like any other.
#[test]
fn the_value_for_no_height_is_a_height() {
    assert_eq!(height_at(3, (-88.8888_f32).to_bits()), Ok(-888_888));
}

#[test]
fn every_node_has_the_limit_of_heights() {
    for node in 0..6 {
        assert_eq!(height_at(node, LAST_FIT), Ok(1_000_000));
        assert_eq!(height_at(node, FIRST_UNFIT), Err(17));
        assert_eq!(height_at(node, NEGATIVE + LAST_FIT), Ok(-1_000_000));
        assert_eq!(height_at(node, NEGATIVE + FIRST_UNFIT), Err(17));
    }
}

#[test]
fn a_node_that_is_not_finite_or_far_is_17() {
    let largest = 0x7F7F_FFFF;
    let not_finite = [0x7F80_0000, 0x7F80_0001, 0x7FC0_0000, 0x7FFF_FFFF];
    for node in 0..6 {
        for bits in not_finite.into_iter().chain([largest, 0x5000_0000]) {
            assert_eq!(height_at(node, bits), Err(17));
            assert_eq!(height_at(node, NEGATIVE + bits), Err(17));
        }
    }
}
