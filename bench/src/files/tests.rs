//! That the made-up files are what the measurements need.

use super::{FileKind, Values};
use crate::{gsb, gtx, FileRoom};

const FOUR: &str = "four bytes";

/// A made-up file's values, in metres or seconds of arc, and what the i128 implementation makes of
/// them, in units or nd. Both are in the nodes' order, longitudes to the east.
fn values(kind: FileKind, values: Values) -> (Vec<f32>, Vec<i32>) {
    let file = kind.made_up(values, 64, 80);
    let (nodes, geometry) = converted(kind, &file);
    let [nodes, _] = nodes;
    assert_eq!(geometry[4..6], [64, 80]);
    let numbers = nodes.chunks_exact(4);
    let numbers = numbers.map(|it| i32::from_le_bytes(it.try_into().expect(FOUR)));
    (floats(kind, &file), numbers.collect())
}

/// What the i128 implementation makes of a file: the nodes, those of a subgrid, and the geometry.
fn converted(kind: FileKind, file: &[u8]) -> ([Vec<u8>; 2], [i64; 12]) {
    let [mut nodes, mut dense] = kind.nodes_lengths(file).map(|it| vec![0; it]);
    let mut geometry = [0; 12];
    let room = FileRoom {
        nodes: &mut nodes,
        dense: &mut dense,
        geometry: &mut geometry,
    };
    let [_, convert] = kind.conversions();
    assert_eq!(convert(file, room), 0);
    ([nodes, dense], geometry)
}

fn floats(kind: FileKind, file: &[u8]) -> Vec<f32> {
    let four = |at: usize| -> [u8; 4] { file[at..at + 4].try_into().expect(FOUR) };
    match kind {
        FileKind::Vdatum => (gtx::HEADER_BYTES..file.len())
            .step_by(4)
            .map(|at| f32::from_be_bytes(four(at)))
            .collect(),
        FileKind::Ntv2 => (0..64 * 80)
            .map(|node| node / 80 * 80 + 79 - node % 80)
            .map(|node| gsb::HEADERS_BYTES + gsb::NODE_BYTES * node)
            .flat_map(|at| [four(at), four(at + 4)].map(f32::from_le_bytes))
            .enumerate()
            .map(|(index, shift)| if index % 2 == 1 { -shift } else { shift })
            .collect(),
    }
}

/// Units in a metre, or nd in a second of arc.
fn scale(kind: FileKind) -> f64 {
    match kind {
        FileKind::Vdatum => 1e4,
        FileKind::Ntv2 => 1.0 / gsb::SECONDS,
    }
}

#[test]
fn national_values_are_within_their_range() {
    for (kind, range) in [(FileKind::Vdatum, 40.0..=46.0), (FileKind::Ntv2, 3.0..=4.0)] {
        let (floats, numbers) = values(kind, Values::National);
        assert!(floats.iter().all(|it| range.contains(&it.abs())));
        let scaled = |it: &f32| f64::from(*it) * scale(kind);
        let near =
            |(float, number): (&f32, &i32)| (scaled(float) - f64::from(*number)).abs() < 0.5 + 1e-6;
        assert!(floats.iter().zip(&numbers).all(near));
        let whole = |it: &&f32| scaled(it) % 1.0 == 0.0;
        assert!(floats.iter().filter(whole).count() < floats.len() / 100);
    }
}

#[test]
fn mixed_values_have_both_signs_and_all_sizes() {
    for (kind, below) in [(FileKind::Vdatum, 6), (FileKind::Ntv2, 5)] {
        let (floats, numbers) = values(kind, Values::Mixed);
        let share = |such: &dyn Fn(&f32) -> bool| {
            floats.iter().filter(|it| such(it)).count() as f64 / floats.len() as f64
        };
        assert!((0.4..0.6).contains(&share(&|it| it.is_sign_negative())));
        assert!((0.01..0.1).contains(&share(&|it| it.is_subnormal())));
        for power in below - 30..below {
            let least = 2_f32.powi(power);
            assert!(share(&|it| (least..2.0 * least).contains(&it.abs())) > 0.01);
        }
        assert!(numbers.contains(&0) && numbers.contains(&1) && numbers.contains(&-1));
    }
}

/// The subgrid covers cells of its parent, of which 64 × 80 nodes have 63 × 79: each side of a cell
/// is divided by 5.
#[test]
fn a_subgrid_lies_over_the_middle_of_its_parent() {
    let kind = FileKind::Ntv2;
    let nested = kind.made_up_nested(Values::Mixed, 64, 80);
    let (file, subgrid) = nested.expect("a file with a subgrid");
    let ([nodes, dense], geometry) = converted(kind, &file);
    let (first, second) = geometry.split_at(6);
    assert_eq!(first[4..], [64, 80]);
    let sizes = [subgrid.rows, subgrid.columns].map(i64::from);
    assert_eq!((&second[4..], sizes), (&[156, 196][..], [156, 196]));
    assert_eq!([first[2], first[3]], [5 * second[2], 5 * second[3]]);
    assert_eq!(second[0] - first[0], 16 * first[2]);
    assert_eq!(second[1] - first[1], 20 * first[3]);
    assert_eq!(nodes.len() + dense.len(), 8 * kind.nodes(&file));
    assert_ne!(nodes[..64], dense[..64]);
    assert_eq!(FileKind::Vdatum.made_up_nested(Values::Mixed, 64, 80), None);
}
