//! The lengths of file and buffers, and 18 before 19.

use crate::files::{converted, file_number_after, nested_file, number_after, small_file, Changes};
use reference::{corrections_from_ntv2, Ntv2File, Number};

/// 22 records, six nodes and END.
const EXACT: usize = 22 * 16 + 6 * 16 + 16;
/// The same with eleven records and six nodes of a subgrid before END.
const NESTED: usize = EXACT + 11 * 16 + 6 * 16;

/// The lengths of both buffers for a file with one grid and for one with a subgrid.
const ONE: [usize; 2] = [48, 0];
const TWO: [usize; 2] = [48, 48];

fn number(file: &[u8], buffer_lengths: [usize; 2]) -> Option<Number> {
    corrections_from_ntv2(file, buffer_lengths).err()
}

#[test]
fn a_file_without_all_records_is_18() {
    let file = nested_file().write();
    for length in [0, 1, 8, 15, 16, 175, 176, 351, 352, 367, 368] {
        for buffers in [[0, 0], ONE, TWO] {
            assert_eq!(number(&file[..length], buffers), Some(18), "{length}");
        }
    }
}

#[test]
fn the_file_has_exactly_its_nodes() {
    for (file, exact, buffers) in [(small_file(), EXACT, ONE), (nested_file(), NESTED, TWO)] {
        let file = file.write();
        assert_eq!(file.len(), exact);
        assert_eq!(number(&file, buffers), None);
        for length in (0..exact).rev() {
            assert_eq!(number(&file[..length], buffers), Some(18), "{length}");
        }
        for more in [1, 8, 15, 16, 17, 176, 368] {
            let longer = [file.clone(), vec![0; more]].concat();
            assert_eq!(number(&longer, buffers), Some(18), "{more}");
        }
    }
}

/// A node more or less behind the header, GS_COUNT as before and as many as the nodes.
#[test]
fn as_many_nodes_as_rows_and_columns() {
    for nodes in [0, 3, 4, 5, 7, 9] {
        let as_before = number_after(|it| it.nodes.resize(nodes, [0; 4]));
        assert_eq!(as_before, Some(18), "{nodes}");
        assert_eq!(number_after(|it| it.set_nodes(nodes)), Some(18), "{nodes}");
    }
}

#[test]
fn each_buffer_has_exactly_its_nodes() {
    let (one, two) = (small_file().write(), nested_file().write());
    for length in [0, 6, 24, 40, 47, 49, 56, 96, usize::MAX] {
        assert_eq!(number(&one, [length, 0]), Some(18), "{length}");
        assert_eq!(number(&two, [length, 48]), Some(18), "{length}");
        assert_eq!(number(&two, [48, length]), Some(18), "{length}");
    }
}

#[test]
fn the_second_buffer_is_empty_for_one_grid() {
    let file = small_file().write();
    for length in [1, 8, 47, 48, 49, usize::MAX] {
        assert_eq!(number(&file, [48, length]), Some(18), "{length}");
    }
}

/// END behind the first grid's nodes, and the same before the subgrid's header.
#[test]
fn end_stands_behind_the_last_grid_alone() {
    let (one, two) = (small_file().write(), nested_file().write());
    let mut counted = one.clone();
    counted[40] = 2;
    assert_eq!(number(&counted, ONE), Some(18));
    assert_eq!(number(&counted, TWO), Some(18));
    let subgrid = &two[EXACT - 16..];
    let after_end = [&counted[..], subgrid].concat();
    assert_eq!(number(&after_end, TWO), Some(18));
    let without_end = &two[..NESTED - 16];
    assert_eq!(number(without_end, TWO), Some(18));
}

#[test]
fn every_kind_of_18_comes_before_19() {
    let changes: [fn(&mut Ntv2File); 8] = [
        |it| it.end.label[3] = 0,
        |it| it.grids[0].header.records[1].label[0] = 0,
        |it| *it.grids[0].header.value_mut("PARENT") = *b"SOME    ",
        |it| it.overview.set_count("NUM_FILE", 3),
        |it| it.grids[0].set_angle("N_LAT", f64::INFINITY),
        |it| it.grids[0].set_angle("LAT_INC", 35.0),
        |it| it.grids[0].set_angle("LONG_INC", 0.0),
        |it| it.grids[0].header.set_count("GS_COUNT", 5),
    ];
    let spoil = |it: &mut Ntv2File| it.grids[0].nodes[5][0] = 0x7FC0_0000;
    assert_eq!(file_number_after(spoil), Some(19));
    for change in changes {
        let number = file_number_after(|it| {
            spoil(it);
            change(it);
        });
        assert_eq!(number, Some(18));
    }
    let mut file = small_file();
    spoil(&mut file);
    let bytes = file.write();
    assert_eq!(number(&bytes, [47, 0]), Some(18));
    assert_eq!(number(&bytes, [48, 1]), Some(18));
    assert_eq!(number(&[bytes, vec![0]].concat(), ONE), Some(18));
}

/// A shift of the parent is refused second, though the subgrid's header comes after it.
#[test]
fn every_kind_of_18_in_the_subgrid_comes_before_19_in_the_parent() {
    let mut spoiled = nested_file();
    spoiled.grids[0].nodes[0][1] = 0x7F80_0000;
    assert_eq!(converted(&spoiled).err(), Some(19));
    let changes: [fn(&mut Ntv2File); 5] = [
        |it| it.grids[1].header.records[10].label[7] = b' ',
        |it| *it.grids[1].header.value_mut("PARENT") = *b"NONE    ",
        |it| it.grids[1].set_angle("S_LAT", f64::NAN),
        |it| it.grids[1].header.set_count("GS_COUNT", 7),
        |it| it.end.label = [0; 8],
    ];
    for change in changes {
        let mut file = spoiled.clone();
        change(&mut file);
        assert_eq!(converted(&file).err(), Some(18));
    }
    assert_eq!(number(&spoiled.write(), [48, 47]), Some(18));
    assert_eq!(number(&spoiled.write(), ONE), Some(18));
}
