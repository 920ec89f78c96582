//! What only NTv2 files have: labels, counts, bounds in either order, and bytes that are not read.

use super::{axes, files, nd};
use compare::{Call, File, Format, Part, Random, Reference};
use reference::{text, Records, GRID_LABELS, OVERVIEW_LABELS};
use std::collections::BTreeSet;

/// The headers of a file, the overview first.
fn headers(file: &File) -> Vec<Records> {
    let grids = file.grids().unwrap_or_default();
    let of_grids = grids.into_iter().filter_map(|it| it.header);
    file.overview().into_iter().chain(of_grids).collect()
}

/// What is wrong with a label.
fn damages(label: &str, found: [u8; 8], labels: &[[u8; 8]]) -> Vec<&'static str> {
    let right = text(label);
    let pairs = found.iter().zip(right);
    let bits: u32 = pairs
        .map(|(found, right)| (found ^ right).count_ones())
        .sum();
    let filled = right.map(|byte| if byte == b' ' { 0 } else { byte });
    let mut met = Vec::new();
    met.extend((bits == 1).then_some("a bit"));
    met.extend((found == filled && filled != right).then_some("filled with zeros"));
    met.extend((found != right && labels.contains(&found)).then_some("another"));
    met
}

/// The label of every record of both grids, and END's, in one place alone.
#[test]
fn every_label_is_damaged_in_a_bit_and_filled_otherwise_and_takes_the_place_of_another() {
    let all: Vec<&str> = [OVERVIEW_LABELS, GRID_LABELS, GRID_LABELS].concat();
    let texts: Vec<[u8; 8]> = all.iter().map(|label| text(label)).collect();
    let mut met = BTreeSet::new();
    for file in files(Format::Ntv2) {
        for (place, header) in headers(&file).iter().enumerate() {
            for (label, record) in header.labelled() {
                let damages = damages(label, record.label, &texts);
                met.extend(damages.into_iter().map(|it| (place, label, it)));
            }
        }
    }
    let shorter = all.iter().filter(|label| label.len() < 8).count();
    assert_eq!(met.len(), 2 * all.len() + shorter, "{met:?}");
}

#[test]
fn every_count_is_changed_by_1_and_cut_to_8_or_16_bits_right() {
    let mut met = BTreeSet::new();
    for overview in files(Format::Ntv2).filter_map(|it| it.overview()) {
        for (label, right) in [("NUM_OREC", 11), ("NUM_SREC", 11), ("NUM_FILE", 1)] {
            let count = i64::from(overview.count(label)) - right;
            met.extend(
                [-1, 1, 256, 65_536]
                    .contains(&count)
                    .then_some((label, count)),
            );
        }
    }
    assert_eq!(met.len(), 3 * 4, "{met:?}");
}

/// The difference of the bounds by the spacing: below zero, none, whole, 1 nd more or less than
/// whole, and half a spacing more.
#[test]
fn differences_of_bounds_are_of_every_kind() {
    let mut met = BTreeSet::new();
    for axis in axes(Format::Ntv2) {
        let nd = |float| nd(Format::Ntv2, float);
        let (Some(low), Some(high)) = (nd(axis.low), axis.high.and_then(nd)) else {
            continue;
        };
        let Some(spacing @ 4..) = nd(axis.spacing) else {
            continue;
        };
        let rest = (high - low).rem_euclid(spacing);
        met.insert((
            axis.low.name,
            match high - low {
                ..0 => "below zero",
                0 => "none",
                _ if rest == 0 => "whole",
                _ if rest == 1 => "1 nd more",
                _ if rest == spacing - 1 => "1 nd less",
                _ if rest == spacing / 2 => "half a spacing more",
                _ => "other",
            },
        ));
    }
    assert_eq!(met.len(), 2 * 7, "{met:?}");
}

/// The places of a file that are not read, each by its part and by its byte from the beginning of
/// that: of the overview, of a header with the first two nodes, and of END.
fn places_by_part(file: &File) -> Vec<(&'static str, usize)> {
    let grids = file.grids().unwrap_or_default();
    let end = file.bytes.len() - 16;
    let part_of = |at: usize| {
        let grid = grids.iter().rev().find(|it| it.header_bytes().start <= at);
        match grid {
            _ if at >= end => ("end", at - end),
            None => ("overview", at),
            Some(grid) => {
                let name = match (grid.part, grids.len()) {
                    (Part::First, 1) => "only grid",
                    (Part::First, _) => "first grid",
                    (Part::Subgrid, _) => "subgrid",
                };
                (name, at - grid.header_bytes().start)
            }
        }
    };
    (0..file.bytes.len()).map(part_of).collect()
}

/// What is not read is changed in every file with its records, and the reference's outcome is the
/// same.
#[test]
fn other_bytes_that_are_not_read_change_nothing() {
    let mut changed = BTreeSet::new();
    for (index, file) in files(Format::Ntv2).enumerate() {
        let mut random = Random::for_case(1, index as u64);
        let Some(other) = file.with_other_unread_bytes(&mut random) else {
            assert!(file.bytes.len() < 368);
            continue;
        };
        if file.converted().is_ok() {
            let places = places_by_part(&file).into_iter().enumerate();
            let of_note = places.filter(|(_, (_, byte))| *byte < 176 + 32);
            let differs = of_note.filter(|(at, _)| file.bytes[*at] != other.bytes[*at]);
            changed.extend(differs.map(|(_, place)| place));
        }
        let outcome = |file| Call::ConvertFile(file).perform(&Reference, 0);
        assert_eq!(outcome(file), outcome(other));
    }
    assert_eq!(changed, unread_places());
}

/// All of them: the accuracies of the first two nodes too.
fn unread_places() -> BTreeSet<(&'static str, usize)> {
    let values = |records: &[usize]| -> Vec<usize> {
        let values = records.iter().map(|it| 16 * it + 8..16 * it + 16);
        values.flatten().collect()
    };
    let behind_counts = |records: &[usize]| -> Vec<usize> {
        let behind = records.iter().map(|it| 16 * it + 12..16 * it + 16);
        behind.flatten().collect()
    };
    let of_overview = [values(&[4, 5, 6, 7, 8, 9, 10]), behind_counts(&[0, 1, 2])].concat();
    let of_grid = [values(&[2, 3, 11, 12]), behind_counts(&[10])].concat();
    let with_name = [values(&[0]), of_grid.clone()].concat();
    [
        ("overview", of_overview),
        ("only grid", with_name.clone()),
        ("first grid", of_grid),
        ("subgrid", with_name),
        ("end", values(&[0])),
    ]
    .into_iter()
    .flat_map(|(part, places)| places.into_iter().map(move |it| (part, it)))
    .collect()
}
