//! The lengths of file and buffer, and 16 before 17.

use crate::files::{converted, file_of, header, SOME_HEIGHT};
use reference::{heights_from_vdatum, Number};

/// The bits of what is not a number.
const NO_NUMBER: u32 = 0x7FC0_0000;

fn small_file() -> Vec<u8> {
    file_of(&header(), &[SOME_HEIGHT; 6])
}

fn number(file: &[u8], buffer_length: usize) -> Option<Number> {
    heights_from_vdatum(file, buffer_length).err()
}

#[test]
fn a_file_below_40_bytes_is_16() {
    let file = small_file();
    for length in [0, 1, 8, 32, 39, 40] {
        assert_eq!(number(&file[..length], 0), Some(16));
        assert_eq!(converted(&file[..length]).err(), Some(16));
        assert_eq!(number(&file[..length], 24), Some(16));
    }
}

#[test]
fn the_file_has_exactly_its_nodes() {
    let file = small_file();
    assert_eq!(number(&file, 24), None);
    for length in [60, 61, 62, 63] {
        assert_eq!(number(&file[..length], 24), Some(16));
        assert_eq!(number(&file[..length], length - 40), Some(16));
    }
    for more in [1, 2, 3, 4, 24] {
        let longer = [file.clone(), vec![0; more]].concat();
        assert_eq!(number(&longer, 24), Some(16));
        assert_eq!(number(&longer, 24 + more), Some(16));
    }
}

#[test]
fn the_buffer_has_exactly_the_nodes() {
    let file = small_file();
    for length in [0, 6, 20, 23, 25, 28, 64, usize::MAX] {
        assert_eq!(number(&file, length), Some(16));
    }
}

#[test]
fn every_cause_of_16_comes_before_17() {
    let nodes = [NO_NUMBER; 6];
    let file = file_of(&header(), &nodes);
    assert_eq!(number(&file, 24), Some(17));
    assert_eq!(number(&file, 23), Some(16));
    assert_eq!(number(&file, 25), Some(16));
    assert_eq!(number(&file[..60], 24), Some(16));
    assert_eq!(number(&[file, vec![0]].concat(), 24), Some(16));
    let mut header = header();
    header.west = 0x7FF0 << 48;
    assert_eq!(number(&file_of(&header, &nodes), 24), Some(16));
    header.west = 180_f64.to_bits();
    assert_eq!(number(&file_of(&header, &nodes), 24), Some(16));
}
