//! That the implementations convert files alike, and refuse the same ones.

use bench::files::{FileKind, Values};
use bench::{gsb, gtx, FileRoom};

/// A file, the lengths of its buffers, and the number with which they are refused.
type Refused = (Vec<u8>, [usize; 2], i64);

/// Bytes put into a file at a place, and the number with which the file is then refused.
type Damage = (usize, Vec<u8>, i64);

/// What nodes and geometry hold before a call.
const FILLING: u8 = 0xEE;
const NO_GEOMETRY: [i64; 12] = [-1; 12];

/// Floats that are no height: infinite, not a number, and the least one past the limit.
const NO_HEIGHTS: [u32; 3] = [0x7F80_0000, 0xFFC0_0000, 0x42C8_0007];

/// The same for shifts.
const NO_SHIFTS: [u32; 3] = [0x7F80_0000, 0xFFC0_0000, 0x4210_0001];

/// Compares the nodes and the geometry of a file that is converted.
pub fn require(kind: FileKind, file: &[u8]) {
    let number = compared(kind, file, kind.nodes_lengths(file));
    assert_eq!(number, 0, "the file is refused");
}

/// Compares the numbers of files that are refused, after which nodes and geometry are unchanged,
/// and gives how many there were.
pub fn require_refusals(kind: FileKind) -> usize {
    let mut wholes = vec![kind.made_up(Values::Mixed, 64, 80)];
    let nested = kind.made_up_nested(Values::Mixed, 24, 30);
    wholes.extend(nested.map(|(file, _)| file));
    let of_whole = |whole: &Vec<u8>| [wrong_lengths(kind, whole), damaged(kind, whole)].concat();
    let refused: Vec<Refused> = wholes.iter().flat_map(of_whole).collect();
    for (file, nodes_lengths, number) in &refused {
        let found = compared(kind, file, *nodes_lengths);
        assert_eq!(found, *number, "another number");
    }
    refused.len()
}

/// The number of a call, the same by both implementations, as are the nodes and the geometry.
fn compared(kind: FileKind, file: &[u8], nodes_lengths: [usize; 2]) -> i64 {
    let [found, expected] = kind.conversions().map(|convert| {
        let [mut nodes, mut dense] = nodes_lengths.map(|it| vec![FILLING; it]);
        let mut geometry = NO_GEOMETRY;
        let room = FileRoom {
            nodes: &mut nodes,
            dense: &mut dense,
            geometry: &mut geometry,
        };
        let number = convert(file, room);
        (number, [nodes, dense].concat(), geometry)
    });
    assert!(found == expected, "the conversions of a file differ");
    let (number, nodes, geometry) = found;
    let unchanged = geometry == NO_GEOMETRY && nodes.iter().all(|byte| *byte == FILLING);
    assert!(number == 0 || unchanged, "a refusal changes what was lent");
    number
}

/// From a file that is converted: other lengths of it, and of its buffers.
fn wrong_lengths(kind: FileKind, whole: &[u8]) -> Vec<Refused> {
    let (length, nodes_lengths) = (whole.len(), kind.nodes_lengths(whole));
    let (header, [number, _]) = (kind.header_bytes(), kind.numbers());
    let longer = [whole, &[0]].concat();
    let files = [0, header - 1, header, length - 4, length - 1, length + 1];
    let mut refused = files
        .map(|it| (longer[..it].to_vec(), nodes_lengths, number))
        .to_vec();
    let [nodes, dense] = nodes_lengths;
    for nodes in [0, nodes - 4, nodes - 1, nodes + 1] {
        refused.push((whole.to_vec(), [nodes, dense], number));
    }
    if kind == FileKind::Ntv2 {
        let others = [0, dense.saturating_sub(1), dense + 1, nodes];
        for other in others.into_iter().filter(|it| *it != dense) {
            refused.push((whole.to_vec(), [nodes, other], number));
        }
    }
    refused
}

/// From the same: each number that is read broken, of the nodes those of the first, of one within
/// and of the last.
fn damaged(kind: FileKind, whole: &[u8]) -> Vec<Refused> {
    let damages = match kind {
        FileKind::Vdatum => vdatum_damages(whole.len()),
        FileKind::Ntv2 => ntv2_damages(whole),
    };
    let nodes_lengths = kind.nodes_lengths(whole);
    let refused = |(at, bytes, number): Damage| {
        let mut file = whole.to_vec();
        file[at..at + bytes.len()].copy_from_slice(&bytes);
        (file, nodes_lengths, number)
    };
    damages.into_iter().map(refused).collect()
}

fn vdatum_damages(length: usize) -> Vec<Damage> {
    let mut damages = Vec::new();
    for at in [0, 8, 16, 24] {
        let not_finite = [f64::INFINITY, f64::NAN];
        damages.extend(not_finite.map(|it| (at, it.to_be_bytes().to_vec(), 16)));
    }
    for at in [32, 36] {
        damages.extend([1, i32::MIN].map(|it| (at, it.to_be_bytes().to_vec(), 16)));
    }
    for at in [gtx::HEADER_BYTES, length / 8 * 4, length - gtx::NODE_BYTES] {
        damages.extend(NO_HEIGHTS.map(|bits| (at, bits.to_be_bytes().to_vec(), 17)));
    }
    damages
}

fn ntv2_damages(whole: &[u8]) -> Vec<Damage> {
    let mut damages = Vec::new();
    let end = whole.len() - gsb::END_BYTES;
    let overview_bytes = gsb::HEADERS_BYTES - gsb::HEADER_BYTES;
    for at in (0..overview_bytes).step_by(16).chain([end]) {
        damages.push((at, b"no label".to_vec(), 18));
    }
    for at in [8, 24, 40] {
        damages.extend([0, 12, i32::MIN].map(|it| (at, it.to_le_bytes().to_vec(), 18)));
    }
    damages.push((56, b"MINUTES ".to_vec(), 18));
    let [first, subgrid] = gsb::nodes(whole);
    damages.extend(ntv2_grid_damages(overview_bytes, first));
    if subgrid > 0 {
        let header = gsb::HEADERS_BYTES + gsb::NODE_BYTES * first;
        damages.extend(ntv2_grid_damages(header, subgrid));
    }
    damages
}

/// Those of a grid whose header begins at a byte, with so many nodes.
fn ntv2_grid_damages(header: usize, nodes: usize) -> Vec<Damage> {
    let mut damages = Vec::new();
    for record in 0..11 {
        damages.push((header + 16 * record, b"no label".to_vec(), 18));
    }
    damages.push((header + 24, b"no name ".to_vec(), 18));
    for at in (header + 72..header + 168).step_by(16) {
        let wrong = [f64::INFINITY, f64::NAN, 77.7, 1e6];
        damages.extend(wrong.map(|it| (at, it.to_le_bytes().to_vec(), 18)));
    }
    let wrong = [0, 12, i32::MIN];
    damages.extend(wrong.map(|it| (header + 168, it.to_le_bytes().to_vec(), 18)));
    for node in [0, nodes / 2, nodes - 1] {
        let at = header + gsb::HEADER_BYTES + gsb::NODE_BYTES * node;
        for at in [at, at + 4] {
            damages.extend(NO_SHIFTS.map(|bits| (at, bits.to_le_bytes().to_vec(), 19)));
        }
    }
    damages
}
