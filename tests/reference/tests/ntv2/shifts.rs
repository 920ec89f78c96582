//! The shifts: the order of the nodes, the sign, the rounding, and each cause of 19 at each node.

use crate::files::{corrections, grid_after};
use reference::{Number, ShiftNode};

const NEGATIVE: u32 = 1 << 31;
/// 36 arcseconds, which are 10,000,000 nd, and the first f32 past them.
const LAST_FIT: u32 = 0x4210_0000;
const FIRST_UNFIT: u32 = LAST_FIT + 1;

fn converted(nodes: [ShiftNode; 6]) -> Result<Vec<[i32; 2]>, Number> {
    grid_after(|it| it.nodes = nodes.to_vec()).map(|it| corrections(&it))
}

/// The correction that a shift becomes in one of the file's nodes, the others having none: a
/// latitude shift (0) or a longitude shift (1).
fn correction_at(node: usize, which: usize, bits: u32) -> Result<i32, Number> {
    let mut nodes = [[0; 4]; 6];
    nodes[node][which] = bits;
    let ours = node / 3 * 3 + 2 - node % 3;
    let corrections = converted(nodes)?;
    assert_eq!(corrections[ours][1 - which], 0);
    Ok(corrections[ours][which])
}

/// From the south-east, westward: ours from the south-west, eastward.
#[test]
fn each_row_is_turned_around_and_the_southern_one_stays_first() {
    let shift = |arcseconds: f32| arcseconds.to_bits();
    let nodes = [9.0, 18.0, 27.0, -9.0, -18.0, -27.0].map(|it| [shift(it), shift(-it), 1, 2]);
    let corrections = converted(nodes).expect("fit nodes");
    let latitudes = [
        7_500_000, 5_000_000, 2_500_000, -7_500_000, -5_000_000, -2_500_000,
    ];
    assert_eq!(corrections, latitudes.map(|it| [it, it]));
}

#[test]
fn the_sign_of_a_longitude_shift_is_turned_before_it_is_rounded() {
    // 9/64 arcsecond is 39,062.5 nd.
    let half = 0x3E10_0000;
    for node in 0..6 {
        assert_eq!(correction_at(node, 0, half), Ok(39_063));
        assert_eq!(correction_at(node, 0, NEGATIVE + half), Ok(-39_062));
        assert_eq!(correction_at(node, 1, half), Ok(-39_062));
        assert_eq!(correction_at(node, 1, NEGATIVE + half), Ok(39_063));
    }
}

#[test]
fn the_buffer_is_little_endian() {
    // 36 arcseconds in the south-east, the third of our nodes: 10,000,000 is 98 96 80 in
    // hexadecimal.
    let grid = grid_after(|it| it.nodes[0] = [LAST_FIT, LAST_FIT, 0, 0]);
    let nodes = grid.expect("a fit file").nodes;
    assert_eq!(nodes.len(), 48);
    assert_eq!(nodes[16..24], [0x80, 0x96, 0x98, 0, 0x80, 0x69, 0x67, 0xFF]);
}

#[test]
fn zeros_and_subnormals_are_corrections_of_0() {
    for size in [0, 1, 0x007F_FFFF, 0x0080_0000] {
        for which in [0, 1] {
            assert_eq!(correction_at(0, which, size), Ok(0));
            assert_eq!(correction_at(5, which, NEGATIVE + size), Ok(0));
        }
    }
}

#[test]
fn both_shifts_of_every_node_have_the_limit_of_corrections() {
    for node in 0..6 {
        assert_eq!(correction_at(node, 0, LAST_FIT), Ok(10_000_000));
        assert_eq!(correction_at(node, 0, NEGATIVE + LAST_FIT), Ok(-10_000_000));
        assert_eq!(correction_at(node, 1, LAST_FIT), Ok(-10_000_000));
        assert_eq!(correction_at(node, 1, NEGATIVE + LAST_FIT), Ok(10_000_000));
        for which in [0, 1] {
            assert_eq!(correction_at(node, which, FIRST_UNFIT), Err(19));
            assert_eq!(correction_at(node, which, NEGATIVE + FIRST_UNFIT), Err(19));
        }
    }
}

#[test]
fn a_shift_that_is_not_finite_or_far_is_19() {
    let not_finite = [0x7F80_0000, 0x7F80_0001, 0x7FC0_0000, 0x7FFF_FFFF];
    for node in 0..6 {
        for bits in not_finite.into_iter().chain([0x7F7F_FFFF, 0x5000_0000]) {
            for which in [0, 1] {
                assert_eq!(correction_at(node, which, bits), Err(19));
                assert_eq!(correction_at(node, which, NEGATIVE + bits), Err(19));
            }
        }
    }
}
