//! What only NTv2 files with a subgrid have: two grids of their own sizes that fit each other or do
//! not, names, two buffers, and refusals of either grid.

use super::{files, fit_files};
use crate::nested::faults;
use compare::{causes, Cause, File, Format, Part, Reason};
use reference::{text, Ntv2File};
use std::cmp::Ordering;
use std::collections::BTreeSet;

/// The files that say two grids and have all their parts.
fn files_with_subgrid() -> impl Iterator<Item = (File, Ntv2File)> {
    let parts = |file: File| Ntv2File::read(&file.bytes).map(|parts| (file, parts));
    let whole = files(Format::Ntv2).filter_map(parts);
    whole.filter(|(_, parts)| parts.grids.len() == 2)
}

#[test]
fn about_half_of_the_files_have_a_subgrid() {
    let count = files(Format::Ntv2).count();
    let with_subgrid = files(Format::Ntv2).filter(File::says_subgrid).count();
    assert!((count * 4 / 10..count * 6 / 10).contains(&with_subgrid));
}

/// Which of the two has more rows, and columns; and whether question 20 will let them pass.
#[test]
fn subgrids_are_of_every_size_and_lie_right_and_wrong() {
    let (mut sizes, mut faulty) = (BTreeSet::new(), BTreeSet::new());
    for file in fit_files(Format::Ntv2) {
        let grids = file.converted().expect("a fit file");
        let [first, subgrid] = &grids[..] else {
            continue;
        };
        let (first, subgrid) = (&first.geometry, &subgrid.geometry);
        let rows = first.rows.cmp(&subgrid.rows);
        let columns = first.columns.cmp(&subgrid.columns);
        sizes.insert((rows, columns));
        let faults = faults(first, subgrid);
        faulty.insert(faults.len().min(1));
    }
    let any = [Ordering::Less, Ordering::Equal, Ordering::Greater];
    let all = any.into_iter().flat_map(|rows| any.map(|it| (rows, it)));
    assert_eq!(sizes, all.collect());
    assert_eq!(faulty, [0, 1].into());
}

/// Each cause of the first grid occurs by itself in a file with a subgrid too.
#[test]
fn every_cause_of_the_first_grid_occurs_beside_a_subgrid() {
    let with_subgrid = files(Format::Ntv2).filter(File::says_subgrid);
    let mut met = Vec::new();
    for file in with_subgrid {
        if let [only] = causes(&file)[..] {
            met.push(only);
        }
    }
    let missing: Vec<Cause> = Cause::all(Format::Ntv2)
        .into_iter()
        .filter(|it| it.reason != Reason::NoHeader && it.reason != Reason::NoSubgrid)
        .filter(|it| !met.contains(it))
        .collect();
    assert_eq!(missing, []);
}

/// How a wrong PARENT differs from the right one: in which byte alone, or what it is.
#[test]
fn parents_are_wrong_in_every_byte_and_the_other_names() {
    let mut met = BTreeSet::new();
    for (_, parts) in files_with_subgrid() {
        let names = [0, 1].map(|it| parts.grids[it].header.value("SUB_NAME"));
        for (grid, right) in [text("NONE"), names[0]].into_iter().enumerate() {
            let parent = parts.grids[grid].header.value("PARENT");
            let differing: Vec<usize> = (0..8).filter(|it| parent[*it] != right[*it]).collect();
            if let [only] = differing[..] {
                met.insert((grid, only.to_string()));
            }
            if parent == right {
                continue;
            }
            for (word, name) in [
                ("NONE", text("NONE")),
                ("first", names[0]),
                ("own", names[1]),
            ] {
                let such = (parent == name).then(|| (grid, word.to_string()));
                met.extend(such);
            }
        }
    }
    // The first grid has its own name for the first one, and is not wrong with NONE.
    assert_eq!(met.len(), 2 * 8 + 2 + 2, "{met:?}");
}

/// The only unfit shift stands in either grid, first or last of it or between.
#[test]
fn an_unfit_shift_stands_anywhere_in_either_grid() {
    let layout = Format::Ntv2.layout();
    let mut met = BTreeSet::new();
    for (file, _) in files_with_subgrid() {
        if file.converted().err() != Some(19) {
            continue;
        }
        for grid in file.grids().expect("a file with its parts") {
            let values: Vec<bool> = file.values_of(&grid).map(|it| layout.allows(it)).collect();
            let place = match values[..] {
                [false, ..] => "first",
                [.., false] => "last",
                _ if values.contains(&false) => "between",
                _ => "none",
            };
            met.insert((grid.part, place));
        }
    }
    assert_eq!(met.len(), 2 * 4, "{met:?}");
}

/// A second buffer that is empty, or as long as the first one where the grids differ in size, and
/// one for a file with one grid.
#[test]
fn second_buffers_are_empty_exchanged_and_lent_for_no_subgrid() {
    let mut met = BTreeSet::new();
    for (file, parts) in files_with_subgrid() {
        let right = [0, 1].map(|it| 8 * parts.grids[it].nodes.len());
        let [first, second] = file.buffer_lengths;
        met.extend((second == 0 && first == right[0]).then_some("empty"));
        let exchanged = [second, first] == right && right[0] != right[1];
        met.extend(exchanged.then_some("exchanged"));
        let alike = first == right[0] && second == first && second != right[1];
        met.extend(alike.then_some("as long as the first"));
    }
    let for_none = Cause {
        part: Part::Subgrid,
        reason: Reason::NoSubgrid,
    };
    let mut one_grid = files(Format::Ntv2).filter(|it| causes(it) == [for_none]);
    assert!(one_grid.any(|it| it.buffer_lengths[0] == it.buffer_lengths[1]));
    assert_eq!(met.len(), 3, "{met:?}");
}

/// What NUM_FILE says, without a second buffer and with one.
#[test]
fn other_numbers_of_grids_are_said_with_one_and_with_two() {
    let mut met = BTreeSet::new();
    for file in files(Format::Ntv2) {
        let Some(overview) = file.overview() else {
            continue;
        };
        met.insert((overview.count("NUM_FILE"), file.buffer_lengths[1] > 0));
    }
    for count in [0, 1, 2, 3, 4, -1, -2, i32::MIN, i32::MAX] {
        for with_buffer in [false, true] {
            assert!(met.contains(&(count, with_buffer)), "{count} {with_buffer}");
        }
    }
}
