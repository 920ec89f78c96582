//! The records: their labels and order, the type and the counts, and the values that are not read.

use crate::files::{
    converted, file_number_after, nested_file, number_after, small_file, GEOMETRY, SOME_NODE,
};
use reference::{corrections_from_ntv2, Ntv2File, Record, Records, OVERVIEW_LABELS};

/// The small file by hand: its headers, six nodes of no shift, and END.
const BY_HAND: &[&[u8]] = &[
    b"NUM_OREC\x0B\0\0\0????",
    b"NUM_SREC\x0B\0\0\0????",
    b"NUM_FILE\x01\0\0\0????",
    b"GS_TYPE SECONDS ",
    b"VERSION ????????",
    b"SYSTEM_F????????",
    b"SYSTEM_T????????",
    b"MAJOR_F ????????",
    b"MINOR_F ????????",
    b"MAJOR_T ????????",
    b"MINOR_T ????????",
    b"SUB_NAME????????",
    b"PARENT  NONE    ",
    b"CREATED ????????",
    b"UPDATED ????????",
    b"S_LAT   \0\0\0\0\0\xDA\x06\x41",
    b"N_LAT   \0\0\0\0\x20\xDB\x06\x41",
    b"E_LONG  \0\0\0\0\x80\xAA\xD1\xC0",
    b"W_LONG  \0\0\0\0\0\x94\xD1\xC0",
    b"LAT_INC \0\0\0\0\0\0\x42\x40",
    b"LONG_INC\0\0\0\0\0\x80\x46\x40",
    b"GS_COUNT\x06\0\0\0????",
    &[0; 6 * 16],
    b"END     ????????",
];

#[test]
fn a_file_by_hand_is_little_endian_in_the_notes_order() {
    let file = BY_HAND.concat();
    let converted = corrections_from_ntv2(&file, [48, 0]).expect("a fit file");
    assert_eq!(converted.len(), 1);
    assert_eq!(converted[0].geometry, GEOMETRY);
    assert_eq!(converted[0].nodes, [0; 48]);
    let parts = Ntv2File::read(&file).expect("all parts");
    assert_eq!(parts.write(), file);
}

/// All records of a file, each with a label that it should have.
fn records(file: &mut Ntv2File) -> Vec<&mut Record> {
    let headers = file.grids.iter_mut().map(|it| &mut it.header);
    let all = [&mut file.overview].into_iter().chain(headers);
    let records = all.flat_map(|it: &mut Records| it.records.iter_mut());
    records.chain([&mut file.end]).collect()
}

/// The numbers of both files after a change of one of their records, by its place.
fn numbers_after(change: impl Fn(&mut [&mut Record], usize)) -> Vec<i64> {
    let mut numbers = Vec::new();
    for file in [small_file(), nested_file()] {
        let count = records(&mut file.clone()).len();
        for place in 1..count {
            let mut changed = file.clone();
            change(&mut records(&mut changed), place);
            numbers.push(converted(&changed).err().unwrap_or(0));
        }
    }
    numbers
}

#[test]
fn every_byte_of_every_label_is_asked_the_spaces_too() {
    for byte in 0..8 {
        for change in [0x20, 0x01, 0xFF] {
            let numbers = numbers_after(|records, place| records[place].label[byte] ^= change);
            assert_eq!(numbers, [18; 22 + 33], "{byte}");
            let first = file_number_after(|it| it.overview.records[0].label[byte] ^= change);
            assert_eq!(first, Some(18), "{byte}");
        }
    }
    assert_eq!(numbers_after(|_, _| {}), [0; 22 + 33]);
}

#[test]
fn records_in_another_order_are_18() {
    let numbers = numbers_after(|records, place| {
        let before = *records[place - 1];
        *records[place - 1] = *records[place];
        *records[place] = before;
    });
    assert_eq!(numbers, [18; 22 + 33]);
}

#[test]
fn the_type_is_seconds_filled_with_a_space() {
    for value in [
        b"SECONDS\0",
        b"SECONDSS",
        b"SECOND  ",
        b"seconds ",
        b" SECONDS",
        b"MINUTES ",
        b"DEGREES ",
    ] {
        let number = file_number_after(|it| *it.overview.value_mut("GS_TYPE") = *value);
        assert_eq!(number, Some(18), "{value:?}");
    }
}

#[test]
fn the_counts_of_records_are_11_and_that_of_grids_is_1_or_2() {
    let number = |label, count| file_number_after(|it| it.overview.set_count(label, count));
    for count in [
        0,
        3,
        10,
        12,
        -1,
        -2,
        -11,
        257,
        258,
        267,
        65_537,
        65_547,
        i32::MIN,
        i32::MAX,
    ] {
        for label in ["NUM_OREC", "NUM_SREC", "NUM_FILE"] {
            assert_eq!(number(label, count), Some(18), "{label} {count}");
        }
    }
    for count in [1, 2] {
        assert_eq!(number("NUM_OREC", count), Some(18));
        assert_eq!(number("NUM_SREC", count), Some(18));
    }
    assert_eq!(number("NUM_FILE", 11), Some(18));
}

#[test]
fn gs_count_is_rows_times_columns() {
    for count in [0, 1, 2, 3, 5, 7, -6, 6 + 65_536, i32::MIN, i32::MAX] {
        let number = number_after(|it| it.header.set_count("GS_COUNT", count));
        assert_eq!(number, Some(18), "{count}");
    }
}

/// The records of each grid whose values are not read. The subgrid's name has no part either.
const UNREAD_IN_A_GRID: [&str; 2] = ["CREATED", "UPDATED"];

#[test]
fn a_value_that_no_refusal_names_is_not_read() {
    let texts = &OVERVIEW_LABELS[4..];
    for mut file in [small_file(), nested_file()] {
        let before = converted(&file);
        assert!(before.is_ok());
        for value in [[0; 8], [0xFF; 8], *b"NONE    ", *b"SUB_NAME"] {
            for label in texts {
                *file.overview.value_mut(label) = value;
            }
            file.end.value = value;
            for label in ["NUM_OREC", "NUM_SREC", "NUM_FILE"] {
                file.overview.value_mut(label)[4..].copy_from_slice(&value[4..]);
            }
            for grid in &mut file.grids {
                for label in UNREAD_IN_A_GRID {
                    *grid.header.value_mut(label) = value;
                }
                grid.header.value_mut("GS_COUNT")[4..].copy_from_slice(&value[4..]);
            }
            let last = file.grids.last_mut().expect("a grid");
            *last.header.value_mut("SUB_NAME") = value;
            assert_eq!(converted(&file), before);
        }
    }
}

#[test]
fn accuracies_are_not_read() {
    for mut file in [small_file(), nested_file()] {
        let before = converted(&file);
        for accuracies in [[0, 0], [0x7F80_0000, 0xFF80_0000], [u32::MAX, 0x4F00_0000]] {
            let node = [SOME_NODE[0], SOME_NODE[1], accuracies[0], accuracies[1]];
            file.grids
                .iter_mut()
                .for_each(|it| it.nodes = vec![node; 6]);
            assert_eq!(converted(&file), before);
        }
    }
}
