//! Files with a subgrid after its parent: what each buffer gets, and which are refused.

use super::ntv2::{both_converted, converted, file_of, put_angle, put_count, PARENT};

/// Bytes of the overview, and of the first grid's nodes with all that is before them.
const OVERVIEW: usize = 176;
const FIRST: usize = 352 + 6 * 16;

/// Bytes of the first grid's SUB_NAME, and of the subgrid's records.
const NAME: usize = 184;
const SECOND_NAME: usize = FIRST + 8;
const SECOND_PARENT: usize = FIRST + 24;

const BOTH: [usize; 2] = [48, 32];

/// Shifts of so many arcseconds.
fn rising<const NODES: usize>(first: f32) -> [[u32; 2]; NODES] {
    std::array::from_fn(|node| {
        let seconds = first + node as f32;
        [seconds, -seconds].map(f32::to_bits)
    })
}

/// The small file with a subgrid of 2 rows of 2 columns, spaced by 18 and 45 arcseconds, in the
/// north-east of its parent. Shifts are 1 to 6 and 11 to 14 arcseconds, in the file's order.
fn nested() -> Vec<u8> {
    let mut file = file_of(rising(1.0)).to_vec();
    let mut sub = file_of(rising(11.0)).to_vec();
    file[40] = 2;
    file[NAME..NAME + 8].copy_from_slice(b"PARENT 1");
    for (at, seconds) in [(248, 187_218.0), (296, -18_045.0), (312, 18.0)] {
        put_angle(&mut sub, at, seconds);
    }
    put_count(&mut sub, 344, 4);
    sub[PARENT..PARENT + 8].copy_from_slice(b"PARENT 1");
    file.truncate(FIRST);
    file.extend(&sub[OVERVIEW..352 + 4 * 16]);
    file.extend(b"END     ????????");
    file
}

/// The number of the file with a change.
fn with(change: impl Fn(&mut [u8])) -> Option<i64> {
    let mut file = nested();
    change(&mut file);
    both_converted(&file, BOTH).err()
}

#[test]
fn each_grid_has_its_own_nodes_and_geometry() {
    let ([first, second], geometry) = both_converted(&nested(), BOTH).expect("a fit file");
    let nd = |seconds: &[i64]| -> Vec<i32> {
        let nd = seconds.iter().map(|it| ((it * 5_000_000 + 9) / 18) as i32);
        nd.flat_map(|it| [it; 2]).collect()
    };
    assert_eq!(first, nd(&[3, 2, 1, 6, 5, 4]));
    assert_eq!(second, nd(&[12, 11, 14, 13]));
    let [north, east] = [52_005_000_000, 5_012_500_000];
    let coarse = [52_000_000_000, 5_000_000_000, 10_000_000, 12_500_000, 2, 3];
    assert_eq!(geometry[..6], coarse);
    assert_eq!(geometry[6..], [north, east, 5_000_000, 12_500_000, 2, 2]);
}

#[test]
fn parents_in_all_their_bytes() {
    for at in (PARENT..PARENT + 8)
        .chain(SECOND_PARENT..SECOND_PARENT + 8)
        .chain(NAME..NAME + 8)
    {
        assert_eq!(with(|file| file[at] ^= 0x01), Some(18), "byte {at}");
    }
    let none =
        |file: &mut [u8]| file[SECOND_PARENT..SECOND_PARENT + 8].copy_from_slice(b"NONE    ");
    assert_eq!(with(none), Some(18));
    let any_name = |file: &mut [u8]| file[SECOND_NAME..SECOND_NAME + 8].fill(0x77);
    assert_eq!(with(any_name), None);
    let none_for_a_name = |file: &mut [u8]| {
        file[NAME..NAME + 8].copy_from_slice(b"NONE    ");
        none(file);
    };
    assert_eq!(with(none_for_a_name), None);
}

#[test]
fn labels_counts_and_angles_of_the_subgrid() {
    for record in (FIRST..FIRST + 176).step_by(16) {
        for at in record..record + 8 {
            assert_eq!(with(|file| file[at] ^= 0x20), Some(18), "byte {at}");
        }
    }
    for count in [0, 3, 5, 6, -4, i32::MIN] {
        assert_eq!(with(|file| put_count(file, FIRST + 168, count)), Some(18));
    }
    for at in (FIRST + 72..FIRST + 168).step_by(16) {
        for seconds in [f64::NAN, f64::INFINITY, 1e18, 77.7] {
            assert_eq!(with(|file| put_angle(file, at, seconds)), Some(18));
        }
    }
    for count in [0, 1, 3, -2, 258, i32::MAX] {
        assert_eq!(with(|file| put_count(file, 40, count)), Some(18), "{count}");
    }
}

#[test]
fn shifts_of_either_grid() {
    let nodes = [352, 5 * 16 + 352, FIRST + 176, FIRST + 176 + 3 * 16];
    for at in nodes.into_iter().flat_map(|it| [it, it + 4]) {
        let no_shift = |file: &mut [u8]| put_count(file, at, 0x4210_0001);
        assert_eq!(with(no_shift), Some(19), "byte {at}");
        let no_label_too = |file: &mut [u8]| {
            no_shift(file);
            file[FIRST] = 0;
        };
        assert_eq!(with(no_label_too), Some(18), "byte {at}");
    }
}

#[test]
fn lengths_of_file_and_buffers() {
    let file = nested();
    for lengths in [
        [48, 0],
        [48, 31],
        [48, 33],
        [48, 48],
        [32, 48],
        [47, 32],
        [0, 0],
    ] {
        assert_eq!(both_converted(&file, lengths), Err(18), "{lengths:?}");
    }
    for length in 0..file.len() {
        assert_eq!(both_converted(&file[..length], BOTH), Err(18), "{length}");
    }
    let longer = [&file[..], &[0]].concat();
    assert_eq!(both_converted(&longer, BOTH), Err(18));
    let end = b"END     ????????";
    let end_between = [&file[..FIRST], end, &file[FIRST..]].concat();
    assert_eq!(both_converted(&end_between, BOTH), Err(18));
}

#[test]
fn one_grid_has_no_second_buffer() {
    let file = file_of(rising(1.0));
    assert!(converted(&file, 48).is_ok());
    for length in [1, 8, 32, 48] {
        assert_eq!(both_converted(&file, [48, length]), Err(18), "{length}");
    }
}

/// Whether the two fit each other is question 20, put to an image.
#[test]
fn a_subgrid_beside_its_parent_is_converted() {
    let beside = |file: &mut [u8]| {
        put_angle(file, FIRST + 72, 0.0);
        put_angle(file, FIRST + 88, 18.0);
    };
    assert_eq!(with(beside), None);
}
