//! A subgrid after its parent: its name for it, its own size, and what each buffer gets.

use crate::files::{
    converted, corrections, nested_file, number_after, small_file, Changes, DENSE_NAME, GEOMETRY,
    NAME,
};
use reference::{Geometry, Ntv2File, Number, ShiftNode};

const NONE: [u8; 8] = *b"NONE    ";

/// The number of a file after its names and parents, of the parent and of the subgrid, were set.
fn number_with(names: [[u8; 8]; 2], parents: [[u8; 8]; 2]) -> Option<Number> {
    let mut file = nested_file();
    for (grid, (name, parent)) in file.grids.iter_mut().zip(names.into_iter().zip(parents)) {
        *grid.header.value_mut("SUB_NAME") = name;
        *grid.header.value_mut("PARENT") = parent;
    }
    converted(&file).err()
}

#[test]
fn the_parent_of_the_only_grid_is_none() {
    for parent in [
        [0; 8],
        *b"none    ",
        *b"NONE\0\0\0\0",
        *b" NONE   ",
        *b"NONE   X",
        NAME,
        *b"RDNAP   ",
    ] {
        let mut file = small_file();
        *file.grids[0].header.value_mut("PARENT") = parent;
        assert_eq!(converted(&file).err(), Some(18), "{parent:?}");
    }
}

#[test]
fn the_parents_are_none_and_the_first_grids_name() {
    let names = [NAME, DENSE_NAME];
    assert_eq!(number_with(names, [NONE, NAME]), None);
    for parents in [
        [NONE, NONE],
        [NONE, DENSE_NAME],
        [NAME, NAME],
        [NAME, NONE],
        [DENSE_NAME, NAME],
        [[0; 8], NAME],
        [NONE, [0; 8]],
    ] {
        assert_eq!(number_with(names, parents), Some(18), "{parents:?}");
    }
}

#[test]
fn any_eight_bytes_are_a_name() {
    for name in [
        NONE,
        [0; 8],
        [0xFF; 8],
        DENSE_NAME,
        *b"        ",
        *b"a\0b\0c\0d\0",
    ] {
        assert_eq!(
            number_with([name, DENSE_NAME], [NONE, name]),
            None,
            "{name:?}"
        );
        assert_eq!(number_with([name, name], [NONE, name]), None, "{name:?}");
    }
}

#[test]
fn all_eight_bytes_of_the_name_are_asked() {
    for byte in 0..8 {
        for change in [0x20, 0x01, 0x80] {
            let mut other = NAME;
            other[byte] ^= change;
            assert_eq!(number_with([NAME, NAME], [NONE, other]), Some(18), "{byte}");
            let mut other = NONE;
            other[byte] ^= change;
            assert_eq!(number_with([NAME, NAME], [other, NAME]), Some(18), "{byte}");
        }
    }
    assert_eq!(number_after(|_| {}), None);
}

/// The small file with a subgrid of three rows and four columns, half as far apart as the
/// parent's, from the parent's south-west node to the north-east one of its western cell and
/// beyond it.
fn dense_file() -> Ntv2File {
    let mut file = nested_file();
    let dense = &mut file.grids[1];
    for (label, arcseconds) in [("E_LONG", -18_067.5), ("LAT_INC", 18.0), ("LONG_INC", 22.5)] {
        dense.set_angle(label, arcseconds);
    }
    dense.set_nodes(12);
    file
}

/// Latitude shifts of 9, 18, … arcseconds from the file's first node on, which are 2,500,000 nd and
/// more, each with a longitude shift of the other sign.
fn rising(count: usize) -> Vec<ShiftNode> {
    let seconds = (1..=count).map(|it| 9.0 / 4.0 * it as f32);
    let nodes = seconds.map(|it| [it.to_bits(), (-it).to_bits(), 0, 0]);
    nodes.collect()
}

#[test]
fn each_grid_has_its_own_geometry() {
    let grids = converted(&dense_file()).expect("a fit file");
    let dense = Geometry {
        latitude_spacing: 5_000_000,
        longitude_spacing: 6_250_000,
        rows: 3,
        columns: 4,
        ..GEOMETRY
    };
    let geometries: Vec<Geometry> = grids.iter().map(|it| it.geometry).collect();
    assert_eq!(geometries, [GEOMETRY, dense]);
}

#[test]
fn each_grid_has_its_own_nodes_and_turns_its_own_rows() {
    let mut file = dense_file();
    file.grids[0].nodes = rising(6);
    file.grids[1].nodes = rising(12);
    let grids = converted(&file).expect("a fit file");
    let nd = |node: i32| [625_000 * node; 2];
    let coarse = [3, 2, 1, 6, 5, 4].map(nd);
    let dense = [4, 3, 2, 1, 8, 7, 6, 5, 12, 11, 10, 9].map(nd);
    assert_eq!(corrections(&grids[0]), coarse);
    assert_eq!(corrections(&grids[1]), dense);
}

#[test]
fn each_shift_of_the_subgrid_is_asked() {
    for node in 0..12 {
        for which in [0, 1] {
            for bits in [0x4210_0001, 0xC210_0001, 0x7F80_0000, 0x7FC0_0000] {
                let mut file = dense_file();
                file.grids[1].nodes[node][which] = bits;
                assert_eq!(converted(&file).err(), Some(19), "{node} {which}");
            }
        }
    }
}

/// Whether the two grids fit each other is question 20, put when an image is opened: a subgrid
/// beside its parent, or between its lines, is converted.
#[test]
fn a_subgrid_need_not_fit_its_parent() {
    for arcseconds in [
        [0.0, 18.0],
        [187_201.0, 187_237.0],
        [-324_000.0, -323_964.0],
    ] {
        let mut file = nested_file();
        file.grids[1].set_angle("S_LAT", arcseconds[0]);
        file.grids[1].set_angle("N_LAT", arcseconds[1]);
        file.grids[1].set_angle("LAT_INC", arcseconds[1] - arcseconds[0]);
        assert!(converted(&file).is_ok(), "{arcseconds:?}");
    }
}
