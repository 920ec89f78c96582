//! Figures of VDatum files: what heights and angles become, and which are refused.

use crate::plain::heights_from_vdatum;
use crate::FileRoom;

/// The header and 6 heights.
const FILE_BYTES: usize = 40 + 6 * 4;

/// A file of 2 rows of 3 columns, spaced by 0.01 and 0.0125 degrees from 52 degrees north and 5
/// degrees east, with heights by their bits.
pub fn file_of(heights: [u32; 6]) -> [u8; FILE_BYTES] {
    let mut file = [0; FILE_BYTES];
    for (place, degrees) in [52.0, 5.0, 0.01, 0.0125].into_iter().enumerate() {
        put_angle(&mut file, place, degrees);
    }
    for (place, number) in [2, 3].into_iter().chain(heights).enumerate() {
        let at = 32 + 4 * place;
        file[at..at + 4].copy_from_slice(&number.to_be_bytes());
    }
    file
}

/// With another angle at a place of the header: south, west, latitude or longitude spacing.
pub fn put_angle(file: &mut [u8], place: usize, degrees: f64) {
    file[8 * place..8 * place + 8].copy_from_slice(&degrees.to_be_bytes());
}

/// The nodes and the geometry of a file, or its number, after which both are as they were.
pub fn converted(file: &[u8], nodes_length: usize) -> Result<(Vec<i32>, [i64; 6]), i64> {
    let (mut nodes, mut geometry) = (vec![0xEE; nodes_length], [-7; 12]);
    let room = FileRoom {
        nodes: &mut nodes,
        dense: &mut [],
        geometry: &mut geometry,
    };
    match heights_from_vdatum(file, room) {
        0 => {
            let nodes = nodes.chunks_exact(4);
            let heights =
                nodes.map(|node| i32::from_le_bytes(node.try_into().expect("four bytes")));
            let [south, west, p, q, rows, columns, ..] = geometry;
            Ok((heights.collect(), [south, west, p, q, rows, columns]))
        }
        number => {
            assert!(nodes.iter().all(|byte| *byte == 0xEE) && geometry == [-7; 12]);
            Err(number)
        }
    }
}

/// What a height with these bits becomes, in units, or its number.
fn height(bits: u32) -> Result<i32, i64> {
    let (heights, _) = converted(&file_of([0, 0, 0, bits, 0, 0]), 24)?;
    Ok(heights[3])
}

/// What an angle of the header becomes, in nd, or its number.
fn angle(place: usize, degrees: f64) -> Result<i64, i64> {
    let mut file = file_of([0; 6]);
    put_angle(&mut file, place, degrees);
    converted(&file, 24).map(|(_, geometry)| geometry[place])
}

#[test]
fn a_small_file() {
    let heights = [43.0, 43.1234, 0.03125, -0.03125, -0.0, -100.000_046_f32].map(f32::to_bits);
    assert_eq!((heights[1], heights[5]), (0x422C_7E5D, 0xC2C8_0006));
    let geometry = [52_000_000_000, 5_000_000_000, 10_000_000, 12_500_000, 2, 3];
    let nodes = vec![430_000, 431_234, 313, -312, 0, -1_000_000];
    assert_eq!(converted(&file_of(heights), 24), Ok((nodes, geometry)));
}

#[test]
fn halves_of_a_unit_go_upward() {
    let of = |metres: f32| height(metres.to_bits());
    assert_eq!([of(0.03125), of(-0.03125)], [Ok(313), Ok(-312)]);
    let beside = [0x3CFF_FFFF, 0x3D00_0001].map(|bits| [height(bits), height(bits | 1 << 31)]);
    assert_eq!(beside, [[Ok(312), Ok(-312)], [Ok(313), Ok(-313)]]);
    assert_eq!([of(0.0), of(-0.0)], [Ok(0), Ok(0)]);
    assert_eq!([height(1), height(0x8000_0001)], [Ok(0), Ok(0)]);
}

#[test]
fn heights_at_and_past_the_limit() {
    assert_eq!(height(0x42C8_0006), Ok(1_000_000));
    assert_eq!(height(0xC2C8_0006), Ok(-1_000_000));
    let past = [8_388_608.0, f32::MAX, f32::INFINITY, f32::NAN].map(f32::to_bits);
    for bits in [0x42C8_0007].into_iter().chain(past) {
        assert_eq!([height(bits), height(bits | 1 << 31)], [Err(17); 2]);
    }
}

#[test]
fn halves_of_an_nd_go_upward() {
    let small = 1.0 / 1_024.0;
    for place in [0, 1] {
        assert_eq!(angle(place, small), Ok(976_563));
        assert_eq!(angle(place, -small), Ok(-976_562));
        assert_eq!(angle(place, -0.0), Ok(0));
        assert_eq!(angle(place, f64::from_bits(1)), Ok(0));
        assert_eq!(angle(place, -f64::from_bits(1)), Ok(0));
    }
    assert_eq!(angle(2, small), Ok(976_563));
    assert_eq!(angle(0, 52.091_630_556), Ok(52_091_630_556));
}
