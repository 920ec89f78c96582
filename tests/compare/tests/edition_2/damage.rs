//! The damaged images of edition 2.

use super::LAID_OUT_ALIKE;
use crate::made_up::{broken_fields, images, question};
use compare::Stream;
use reference::{Trailer, TwoGridTrailer};
use std::collections::BTreeSet;

/// The trailers of all images of a stream that say edition 2 and are long enough to have one.
fn trailers(stream: Stream) -> impl Iterator<Item = TwoGridTrailer> {
    images(stream)
        .filter_map(|image| TwoGridTrailer::read(&image))
        .filter(|trailer| trailer.edition == 2)
}

#[test]
fn every_field_of_the_trailer_is_broken() {
    for stream in LAID_OUT_ALIKE {
        let mut met = BTreeSet::new();
        for trailer in trailers(stream) {
            let of = |grid, geometry| {
                broken_fields(geometry)
                    .into_iter()
                    .map(move |it| (grid, it))
            };
            met.extend(of("corrections", trailer.corrections));
            met.extend(of("heights", trailer.heights));
            let right = TwoGridTrailer::over(trailer.corrections, trailer.heights);
            if trailer.correction_back != right.correction_back {
                met.insert(("corrections", "back"));
            }
            if trailer.height_back != right.height_back {
                met.insert(("heights", "back"));
            }
        }
        assert_eq!(met.len(), 2 * 7, "{stream} {met:?}");
    }
}

#[test]
fn kinds_are_0_to_4_and_more_and_editions_0_to_2_and_more() {
    for stream in LAID_OUT_ALIKE {
        let kinds: BTreeSet<u32> = trailers(stream).map(|it| it.kind.min(5)).collect();
        assert_eq!(kinds.len(), 6, "{stream} {kinds:?}");
        let trailers = images(stream).filter_map(|image| Trailer::read(&image));
        let editions: BTreeSet<u32> = trailers.map(|it| it.edition.min(3)).collect();
        assert_eq!(editions.len(), 4, "{stream} {editions:?}");
    }
}

#[test]
fn images_are_cut_at_every_length_of_note() {
    for stream in LAID_OUT_ALIKE {
        let mut met = BTreeSet::new();
        let noted = [0, 1, 39, 40, 41, 79, 80, 81];
        for image in images(stream) {
            let length = image.len();
            if noted.contains(&length) {
                met.insert(("length", length as i64));
            }
            let Some(trailer) = TwoGridTrailer::read(&image).filter(|it| it.edition == 2) else {
                continue;
            };
            for (name, back) in [
                ("corrections", trailer.correction_back),
                ("heights", trailer.height_back),
            ] {
                let beyond = length as i64 - i64::from(back);
                if (-1..=1).contains(&beyond) {
                    met.insert((name, beyond));
                }
            }
        }
        assert_eq!(met.len(), noted.len() + 6, "{stream} {met:?}");
    }
}

#[test]
fn the_two_grids_are_refused_by_different_questions() {
    for stream in LAID_OUT_ALIKE {
        let met: BTreeSet<(i32, i32)> = trailers(stream)
            .map(|it| (question(&it.corrections), question(&it.heights)))
            .collect();
        assert_eq!(met.len(), 16, "{stream} {met:?}");
    }
}
