//! The same bytes as other kinds.

use super::STREAM;
use crate::made_up::{images, with_kind};
use reference::{open_image, TwoGridTrailer};
use std::collections::BTreeSet;

#[test]
fn kinds_are_0_to_4_and_more_beside_the_same_bytes() {
    let mut kinds = BTreeSet::new();
    for image in images(STREAM) {
        let Some(trailer) = TwoGridTrailer::read(&image).filter(|it| it.edition == 2) else {
            continue;
        };
        if open_image(&with_kind(image, 2)).is_ok() {
            kinds.insert(trailer.kind.min(5));
            kinds.extend([258].into_iter().filter(|it| *it == trailer.kind));
        }
    }
    assert_eq!(kinds.len(), 7, "{kinds:?}");
}
