//! Figures of NTv2 files: what shifts and angles become, in which order, and which are refused.

use crate::plain::corrections_from_ntv2;
use crate::FileRoom;

/// Two headers, 6 nodes and the record END.
const FILE_BYTES: usize = 352 + 6 * 16 + 16;

/// Bytes of the angles' values: S_LAT, N_LAT, E_LONG, W_LONG, LAT_INC and LONG_INC.
pub const ANGLES: [usize; 6] = [248, 264, 280, 296, 312, 328];

/// Bytes of the grid's PARENT.
pub const PARENT: usize = 200;

/// What is not read.
const UNREAD: u8 = 0xFF;

/// A file of 2 rows of 3 columns, spaced by 36 and 45 arcseconds from 52 degrees north and 5 degrees
/// east, with latitude and longitude shifts by their bits, in the file's order. All that is not read
/// has each bit set.
pub fn file_of(shifts: [[u32; 2]; 6]) -> [u8; FILE_BYTES] {
    let labels = "NUM_ORECNUM_SRECNUM_FILEGS_TYPE VERSION SYSTEM_FSYSTEM_TMAJOR_F MINOR_F MAJOR_T \
                  MINOR_T SUB_NAMEPARENT  CREATED UPDATED S_LAT   N_LAT   E_LONG  W_LONG  LAT_INC \
                  LONG_INCGS_COUNT";
    let mut file = [UNREAD; FILE_BYTES];
    for (record, label) in labels.as_bytes().chunks_exact(8).enumerate() {
        file[16 * record..][..8].copy_from_slice(label);
    }
    for (at, count) in [(8, 11), (24, 11), (40, 1), (344, 6)] {
        put_count(&mut file, at, count);
    }
    file[56..64].copy_from_slice(b"SECONDS ");
    file[PARENT..PARENT + 8].copy_from_slice(b"NONE    ");
    let seconds = [187_200.0, 187_236.0, -18_090.0, -18_000.0, 36.0, 45.0];
    for (at, seconds) in ANGLES.into_iter().zip(seconds) {
        put_angle(&mut file, at, seconds);
    }
    for (node, shifts) in shifts.into_iter().enumerate() {
        for (value, bits) in shifts.into_iter().enumerate() {
            file[352 + 16 * node + 4 * value..][..4].copy_from_slice(&bits.to_le_bytes());
        }
    }
    file[FILE_BYTES - 16..][..8].copy_from_slice(b"END     ");
    file
}

pub fn put_angle(file: &mut [u8], at: usize, seconds: f64) {
    file[at..at + 8].copy_from_slice(&seconds.to_le_bytes());
}

pub fn put_count(file: &mut [u8], at: usize, count: i32) {
    file[at..at + 4].copy_from_slice(&count.to_le_bytes());
}

/// The corrections in both buffers.
pub type Corrections = [Vec<i32>; 2];

/// The corrections in both buffers and the geometry of a file, or its number, after which nodes and
/// geometry are as they were.
pub fn both_converted(file: &[u8], lengths: [usize; 2]) -> Result<(Corrections, [i64; 12]), i64> {
    let [mut nodes, mut dense] = lengths.map(|it| vec![0xEE; it]);
    let mut geometry = [-7; 12];
    let room = FileRoom {
        nodes: &mut nodes,
        dense: &mut dense,
        geometry: &mut geometry,
    };
    let number = corrections_from_ntv2(file, room);
    if number != 0 {
        let mut bytes = nodes.iter().chain(&dense);
        assert!(bytes.all(|byte| *byte == 0xEE) && geometry == [-7; 12]);
        return Err(number);
    }
    let number = |it: &[u8]| i32::from_le_bytes(it.try_into().expect("four bytes"));
    let numbers = [nodes, dense].map(|it| it.chunks_exact(4).map(number).collect());
    Ok((numbers, geometry))
}

/// The same of a file with one grid, without the second buffer and the last six numbers, which are
/// zeros.
pub fn converted(file: &[u8], nodes_length: usize) -> Result<(Vec<i32>, [i64; 6]), i64> {
    let ([numbers, _], geometry) = both_converted(file, [nodes_length, 0])?;
    let [south, west, p, q, rows, columns, rest @ ..] = geometry;
    assert_eq!(rest, [0; 6]);
    Ok((numbers, [south, west, p, q, rows, columns]))
}

/// What a latitude shift and a longitude shift with these bits become, in nd, or their numbers.
fn corrections(bits: u32) -> [Result<i32, i64>; 2] {
    [[bits, 0], [0, bits]].map(|shifts| {
        let mut all = [[0; 2]; 6];
        all[4] = shifts;
        let (numbers, _) = converted(&file_of(all), 48)?;
        Ok(numbers[2 * 4] + numbers[2 * 4 + 1])
    })
}

#[test]
fn a_small_file() {
    let seconds = [[36.0, -36.0], [1.0, 1.0], [-1.0, 0.5], [9.0, 0.0]];
    let seconds = seconds.into_iter().chain([[0.0, 9.0], [-0.0, -0.0]]);
    let mut shifts = [[0; 2]; 6];
    for (place, seconds) in shifts.iter_mut().zip(seconds) {
        *place = seconds.map(f32::to_bits);
    }
    let geometry = [52_000_000_000, 5_000_000_000, 10_000_000, 12_500_000, 2, 3];
    let southern = [
        -277_778, -138_889, 277_778, -277_778, 10_000_000, 10_000_000,
    ];
    let northern = [0, 0, 0, -2_500_000, 2_500_000, 0];
    let numbers = [southern, northern].concat();
    assert_eq!(converted(&file_of(shifts), 48), Ok((numbers, geometry)));
}

#[test]
fn halves_of_an_nd_go_upward_once_the_sign_is_turned() {
    let of = |seconds: f32| corrections(seconds.to_bits());
    assert_eq!(of(0.140_625), [Ok(39_063), Ok(-39_062)]);
    assert_eq!(of(-0.140_625), [Ok(-39_062), Ok(39_063)]);
    let half = 0.140_625_f32.to_bits();
    assert_eq!(corrections(half - 1), [Ok(39_062), Ok(-39_062)]);
    assert_eq!(corrections(half + 1), [Ok(39_063), Ok(-39_063)]);
    assert_eq!([of(0.0), of(-0.0)], [[Ok(0); 2]; 2]);
    assert_eq!([corrections(1), corrections(0x8000_0001)], [[Ok(0); 2]; 2]);
}

#[test]
fn shifts_at_and_past_the_limit() {
    assert_eq!(corrections(0x4210_0000), [Ok(10_000_000), Ok(-10_000_000)]);
    assert_eq!(corrections(0xC210_0000), [Ok(-10_000_000), Ok(10_000_000)]);
    let past = [8_388_608.0, f32::MAX, f32::INFINITY, f32::NAN].map(f32::to_bits);
    for bits in [0x4210_0001].into_iter().chain(past) {
        assert_eq!(corrections(bits), [Err(19); 2]);
        assert_eq!(corrections(bits | 1 << 31), [Err(19); 2]);
    }
}

#[test]
fn bounds_are_turned_before_they_are_rounded() {
    let mut file = file_of([[0; 2]; 6]);
    let moved = 9.0 / 64.0;
    for (at, seconds) in [(248, 0.0), (264, 36.0), (280, -90.0), (296, 0.0)] {
        put_angle(&mut file, at, seconds + moved);
    }
    let (_, geometry) = converted(&file, 48).expect("a file that is converted");
    assert_eq!(geometry[..2], [39_063, -39_062]);
}
