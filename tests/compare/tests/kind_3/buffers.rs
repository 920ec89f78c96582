//! The buffers of conversions, and which number follows from image and buffer.

use super::arrangings;
use crate::made_up::number_of;
use compare::Arranged;
use reference::{arrange, open_image};
use std::collections::BTreeSet;

/// What comes of a conversion is found here and by the reference in different ways.
#[test]
fn the_number_follows_from_what_is_wrong_with_image_and_buffer() {
    for given in arrangings() {
        let number = number_of(arrange(
            given.arrangement,
            &given.image,
            given.buffer_length,
        ));
        assert_eq!(Arranged::of(&given).event.number(), number);
    }
}

/// By how many bytes the buffers for fit images are too long or too short.
#[test]
fn buffers_are_a_byte_and_a_value_off_and_longer_by_all_bytes_before_the_first_node() {
    let (mut off, mut before) = (BTreeSet::new(), BTreeSet::new());
    for given in arrangings().filter(|it| open_image(&it.image).is_ok()) {
        let right = given.length_from_the_first_node().expect("a fit image");
        let [length, right, whole] = [given.buffer_length, right, given.image.len()]
            .map(|it| i64::try_from(it).expect("a length"));
        off.insert(length - right);
        if length == whole {
            before.insert(whole - right);
        }
        if length == 0 {
            off.insert(i64::MIN);
        }
    }
    for wanted in [0, -1, 1, -4, 4, -8, -80, i64::MIN] {
        assert!(off.contains(&wanted), "{wanted} {off:?}");
    }
    for wanted in [0, 1, 4, 8] {
        assert!(before.contains(&wanted), "{wanted} {before:?}");
    }
}
