//! Made-up records: fit ones, and with a label, the type or a count broken.

use crate::random::Random;
use reference::{text, Record, Records, END_LABEL, GRID_LABELS, OVERVIEW_LABELS};

/// An overview whose labels, type and counts are fit, for so many grids, and with any other values.
pub fn overview(random: &mut Random, grids: i32) -> Records {
    let mut overview = Records::new(&OVERVIEW_LABELS, |_| random.draw().to_le_bytes());
    *overview.value_mut("GS_TYPE") = text("SECONDS");
    overview.set_count("NUM_OREC", 11);
    overview.set_count("NUM_SREC", 11);
    overview.set_count("NUM_FILE", grids);
    overview
}

/// A grid's header with any values.
pub fn header(random: &mut Random) -> Records {
    Records::new(&GRID_LABELS, |_| random.draw().to_le_bytes())
}

/// END with any value.
pub fn end(random: &mut Random) -> Record {
    Record {
        label: text(END_LABEL),
        value: random.draw().to_le_bytes(),
    }
}

/// Breaks a record's label: one bit of it, its small letters, its filling, or another label for
/// it.
pub fn break_label(random: &mut Random, record: &mut Record) {
    let label = record.label;
    let labels = [OVERVIEW_LABELS, GRID_LABELS].concat();
    let other = text(random.pick(&labels));
    let small = label.map(|byte| byte.to_ascii_lowercase());
    let filled = label.map(|byte| if byte == b' ' { 0 } else { byte });
    let mut last_byte = label;
    last_byte[7] ^= random.between(1, 255) as u8;
    let one_bit = with_one_bit_changed(random, label);
    record.label = random.pick(&[one_bit, one_bit, last_byte, small, filled, other, [0; 8]]);
}

/// The text with one bit changed.
pub fn with_one_bit_changed(random: &mut Random, mut text: [u8; 8]) -> [u8; 8] {
    text[random.below(8) as usize] ^= 1 << random.below(8);
    text
}

/// Another type, or one bit of it changed.
pub fn break_type(random: &mut Random, overview: &mut Records) {
    let one_bit = with_one_bit_changed(random, text("SECONDS"));
    *overview.value_mut("GS_TYPE") = random.pick(&[
        one_bit,
        text("MINUTES"),
        text("DEGREES"),
        text("SECOND"),
        text("seconds"),
        *b"SECONDS\0",
    ]);
}

/// Another number of grids, near those that are allowed.
pub fn break_number_of_grids(random: &mut Random, overview: &mut Records) {
    let number = random.pick(&[0, 1, 2, 3, 3, 3, 4, -1, -2]);
    overview.set_count("NUM_FILE", number);
}

/// Changes a count.
pub fn break_count(random: &mut Random, records: &mut Records, label: &str) {
    let count = records.count(label);
    let any = random.draw() as i32;
    let other = random.pick(&[
        count.wrapping_sub(1),
        count.wrapping_add(1),
        0,
        count.wrapping_neg(),
        count.wrapping_add(256),
        count.wrapping_add(65_536),
        count.wrapping_shl(24),
        i32::MIN,
        i32::MAX,
        any,
    ]);
    records.set_count(label, other);
}
