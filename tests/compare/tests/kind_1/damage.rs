//! The damaged images of kind 1.

use super::STREAM;
use crate::made_up::{broken_fields, images, question};
use crate::nested::trailers;
use reference::{open_image, DenseTrailer, TwoGridTrailer};
use std::collections::BTreeSet;

/// The images that say edition 2 and are long enough, with their trailer.
fn of_edition_2() -> impl Iterator<Item = (Vec<u8>, TwoGridTrailer)> {
    images(STREAM).filter_map(|image| {
        let trailer = TwoGridTrailer::read(&image).filter(|it| it.edition == 2)?;
        Some((image, trailer))
    })
}

/// Both trailers of all images that say kind 1 and are long enough.
fn both_trailers() -> impl Iterator<Item = (TwoGridTrailer, DenseTrailer)> {
    images(STREAM).filter_map(|image| trailers(&image))
}

/// The other trailer being right, so that the 36 bytes are those that were broken.
#[test]
fn every_field_of_the_36_bytes_is_broken() {
    let mut met = BTreeSet::new();
    for (trailer, dense) in both_trailers() {
        let right = TwoGridTrailer {
            kind: 1,
            ..TwoGridTrailer::over(trailer.corrections, trailer.heights)
        };
        if trailer != right {
            continue;
        }
        met.extend(broken_fields(dense.geometry));
        let right_back = DenseTrailer::over(dense.geometry, &trailer).back;
        if question(&dense.geometry) == 6 && dense.back != right_back {
            met.insert("back");
        }
    }
    assert_eq!(met.len(), 7, "{met:?}");
}

#[test]
fn dense_backs_are_counted_from_other_places() {
    let mut met = BTreeSet::new();
    for (trailer, dense) in both_trailers().filter(|it| question(&it.1.geometry) == 6) {
        let right = DenseTrailer::over(dense.geometry, &trailer).back;
        let nodes = 8 * dense.geometry.nodes() as u32;
        let events = [
            ("right", right),
            ("from the correction nodes", nodes + 36),
            ("from the 36 bytes", nodes),
            ("without the 36 bytes", right - 36),
            ("a byte less", right - 1),
            ("a byte more", right + 1),
            ("a node less", right - 8),
            ("a node more", right + 8),
        ];
        let is_so = events.into_iter().filter(|it| it.1 == dense.back);
        met.extend(is_so.map(|it| it.0));
    }
    assert_eq!(met.len(), 8, "{met:?}");
}

#[test]
fn kinds_are_0_to_3_and_more_beside_the_same_36_bytes() {
    let mut kinds = BTreeSet::new();
    for (image, trailer) in of_edition_2() {
        let mut as_kind_1 = image;
        let kind = as_kind_1.len() - 8;
        as_kind_1[kind..kind + 4].copy_from_slice(&1_u32.to_le_bytes());
        if open_image(&as_kind_1).is_ok() {
            kinds.insert(trailer.kind.min(4));
        }
    }
    assert_eq!(kinds.len(), 5, "{kinds:?}");
}

#[test]
fn images_are_cut_at_every_length_of_note() {
    let mut met = BTreeSet::new();
    for (image, trailer) in of_edition_2().filter(|it| it.1.kind == 1) {
        let length = image.len() as i64;
        let corrections = i64::from(trailer.correction_back);
        let mut noted = vec![
            ("80", 80),
            ("the corrections' back", corrections),
            ("36 more", corrections + 36),
        ];
        if let Some(dense) = DenseTrailer::read(&image, &trailer) {
            noted.push(("the dense back", dense.back.into()));
        }
        let beyond = noted.into_iter().map(|(name, it)| (name, length - it));
        met.extend(beyond.filter(|it| (-1..=1).contains(&it.1)));
    }
    // An image of 79 bytes has no trailer of edition 2.
    assert_eq!(met.len(), 4 * 3 - 1, "{met:?}");
}

#[test]
fn correction_backs_are_far_too_large_and_let_other_bytes_be_the_36() {
    let mut met = BTreeSet::new();
    for (image, trailer) in of_edition_2().filter(|it| it.1.kind == 1) {
        let right = trailer.right_correction_back();
        let back = i128::from(trailer.correction_back);
        let number = open_image(&image).err().unwrap_or(0);
        if back != right {
            met.insert((back > image.len() as i128, number));
        }
    }
    assert!(met.contains(&(true, 1)), "{met:?}");
    assert!(
        (3..=6).all(|number| met.contains(&(false, number))),
        "{met:?}"
    );
}

#[test]
fn the_dense_grid_is_refused_by_other_questions_than_the_others() {
    let mut met = BTreeSet::new();
    for (trailer, dense) in both_trailers() {
        let of_dense = question(&dense.geometry);
        met.insert(("corrections", question(&trailer.corrections), of_dense));
        met.insert(("heights", question(&trailer.heights), of_dense));
    }
    assert_eq!(met.len(), 2 * 16, "{met:?}");
}
