//! The headers and the sizes of the made-up files.

use super::{axes, files, fit_files, nd};
use crate::made_up::SEED;
use compare::cases::files::has_large_file;
use compare::{geometry_numbers, Call, File, Format, Stream, FULL_RUN};
use reference::{nearest, FileHeader, DEGREE, DOUBLE};
use std::collections::BTreeSet;

/// Where a rounded number lies by a limit, if it is there or 1 beside it.
fn by_limit(number: i128, limit: i128) -> Option<i128> {
    Some(number - limit).filter(|it| it.abs() <= 1)
}

#[test]
fn bounds_stand_at_their_limits_and_1_nd_beside_them() {
    for format in Format::ALL {
        let mut met = BTreeSet::new();
        for axis in axes(format) {
            let (Some(low), Some(spacing)) = (nd(format, axis.low), nd(format, axis.spacing))
            else {
                continue;
            };
            let high = match axis.high {
                Some(high) => nd(format, high),
                None => axis.lines.map(|it| low + (i128::from(it) - 1) * spacing),
            };
            let limit = axis.axis.degrees_limit() * DEGREE;
            let lower = by_limit(low, -limit);
            let upper = high.and_then(|it| by_limit(it, limit));
            met.extend(lower.map(|it| (limit, "low", it)));
            met.extend(upper.map(|it| (limit, "high", it)));
        }
        assert_eq!(met.len(), 2 * 2 * 3, "{met:?}");
    }
}

#[test]
fn spacings_stand_at_their_limits_and_1_nd_beside_them() {
    for format in Format::ALL {
        let mut met = BTreeSet::new();
        for axis in axes(format) {
            let Some(spacing) = nd(format, axis.spacing) else {
                continue;
            };
            for limit in [0, 100_000_000] {
                let by_limit = by_limit(spacing, limit);
                met.extend(by_limit.map(|it| (axis.spacing.name, limit, it)));
            }
        }
        assert_eq!(met.len(), 2 * 2 * 3, "{met:?}");
    }
}

/// Of two floats next to each other one becomes the limit, and the other a number past it.
#[test]
fn angles_stand_one_bit_on_either_side_of_their_limits() {
    for format in Format::ALL {
        let scale = format.layout().angle_scale;
        let mut met = BTreeSet::new();
        for axis in axes(format) {
            for float in axis.floats() {
                let limit = match float.name {
                    _ if float == axis.spacing => DEGREE / 10,
                    _ => axis.axis.degrees_limit() * DEGREE,
                };
                let past = |bits| nearest(DOUBLE, bits, scale).map(|it| it.abs() > limit);
                let next = [
                    float.bits.wrapping_sub(1),
                    float.bits,
                    float.bits.wrapping_add(1),
                ];
                match next.map(past) {
                    [_, Some(false), Some(true)] => met.insert((float.name, "within")),
                    [Some(false), Some(true), _] => met.insert((float.name, "past")),
                    _ => false,
                };
            }
        }
        assert_eq!(met.len(), 2 * format.layout().angles.len(), "{met:?}");
    }
}

#[test]
fn large_counts_and_negative_ones_occur_in_vdatum_files() {
    let headers = files(Format::Vdatum).filter_map(|file| FileHeader::read(&file.bytes));
    let counts: BTreeSet<(i32, i32)> = headers.map(|it| (it.rows, it.columns)).collect();
    for both in [65_536, 32_768, i32::MIN, i32::MAX, -1, 0] {
        assert!(counts.contains(&(both, both)), "{both}");
    }
    let rows: BTreeSet<i32> = counts.iter().map(|it| it.0).collect();
    let columns: BTreeSet<i32> = counts.iter().map(|it| it.1).collect();
    for count in [i32::MIN, -1, 0, 1, 2, 4_095, 4_096, 4_097, 65_536, i32::MAX] {
        assert!(rows.contains(&count) && columns.contains(&count), "{count}");
    }
}

/// The bytes of 65,536 × 65,536 nodes are 0 if cut to 32 bits; of as many rows and columns below
/// zero as an i32 can say, if cut to 64.
#[test]
fn vdatum_files_without_nodes_occur_whose_node_bytes_are_0_if_cut() {
    for count in [65_536, i32::MIN] {
        let large = |header: FileHeader| (header.rows, header.columns) == (count, count);
        let without_nodes = |file: &File| (file.bytes.len(), file.buffer_lengths[0]) == (40, 0);
        let mut files = files(Format::Vdatum).filter(without_nodes);
        assert!(files.any(|file| FileHeader::read(&file.bytes).is_some_and(large)));
    }
}

#[test]
fn converted_files_reach_the_limits_of_the_geometry() {
    let wanted = [
        ("south", -90_000_000_000),
        ("west", -180_000_000_000),
        ("P", 1),
        ("P", 100_000_000),
        ("Q", 1),
        ("Q", 100_000_000),
        ("rows", 2),
        ("rows", 4_096),
        ("columns", 2),
        ("columns", 4_096),
    ];
    for format in Format::ALL {
        let mut met = BTreeSet::new();
        for file in fit_files(format) {
            let names = ["south", "west", "P", "Q", "rows", "columns"];
            for (grid, converted) in file.converted().expect("a fit file").iter().enumerate() {
                let numbers = names.into_iter().zip(geometry_numbers(&converted.geometry));
                met.extend(numbers.map(|(name, number)| (grid, name, number)));
            }
        }
        for grid in 0..format.layout().geometry_numbers / 6 {
            let mut wanted = wanted.iter();
            let is_met = |(name, number): &(_, i64)| met.contains(&(grid, *name, *number));
            assert!(wanted.all(is_met), "{grid} {met:?}");
        }
    }
}

#[test]
fn a_full_run_converts_a_large_file() {
    let index = (0..FULL_RUN).find(|index| has_large_file(*index));
    let index = index.expect("a case");
    for (format, sizes) in [
        (Format::Vdatum, &[(4_096, 4_096)][..]),
        (Format::Ntv2, &[(4_096, 256), (16, 4_096)]),
    ] {
        let Call::ConvertFile(file) = Stream::Files(format).call(SEED, index) else {
            panic!("another call");
        };
        let grids = file.converted().expect("a fit file");
        let found = grids
            .iter()
            .map(|it| (it.geometry.rows, it.geometry.columns));
        assert_eq!(found.collect::<Vec<(u32, u32)>>(), sizes);
    }
}
