//! Questions 1 to 6 as they are put to kind 3.

use crate::images::{changed, in_nodes, in_planes};
use reference::{open_image, TwoGridTrailer};

fn number_after(change: impl Fn(&mut TwoGridTrailer)) -> Option<i64> {
    open_image(&changed(&in_planes(), change)).err()
}

#[test]
fn question_1_asks_for_80_bytes_and_question_6_for_all() {
    let image = in_planes();
    let number = |length| open_image(&image[image.len() - length..]).err();
    assert_eq!([39, 40, 79].map(number), [Some(1); 3]);
    assert_eq!([80, 223].map(number), [Some(6); 2]);
    assert_eq!(number(224), None);
}

/// Kinds 0 and 2 have the same parts, and kind 1 has 36 bytes more.
#[test]
fn the_same_bytes_open_as_other_kinds() {
    let number = |kind| number_after(|trailer| trailer.kind = kind);
    assert_eq!([0, 2, 3].map(number), [None; 3]);
    assert_eq!(number(1), Some(1));
    for unknown in [4, 5, 259, 3 << 8, 3 << 16, 3 << 24, u32::MAX] {
        assert_eq!(number(unknown), Some(2));
    }
}

#[test]
fn questions_3_to_6_are_put_to_both_grids() {
    assert_eq!(number_after(|it| it.corrections.rows = 1), Some(3));
    assert_eq!(number_after(|it| it.heights.columns = 4_097), Some(3));
    let spacing = |it: &mut TwoGridTrailer| it.corrections.longitude_spacing = 100_000_001;
    assert_eq!(number_after(spacing), Some(4));
    assert_eq!(number_after(|it| it.heights.latitude_spacing = 0), Some(4));
    let south = |it: &mut TwoGridTrailer| it.corrections.south = -90_000_000_001;
    assert_eq!(number_after(south), Some(5));
    assert_eq!(number_after(|it| it.heights.west = i64::MAX), Some(5));
}

/// "Backs as in kind 0": to the first latitude correction, 8 × 12 + 4 × 12 + 80, not to the first
/// longitude correction.
#[test]
fn question_6_the_backs_are_those_of_kind_0() {
    let trailer = TwoGridTrailer::read(&in_planes()).expect("a trailer");
    let of_kind_0 = TwoGridTrailer::read(&in_nodes(0)).expect("a trailer");
    assert_eq!(
        trailer,
        TwoGridTrailer {
            kind: 3,
            ..of_kind_0
        }
    );
    assert_eq!((trailer.correction_back, trailer.height_back), (224, 128));
    for back in [223, 225, 176, 128, 0, u32::MAX] {
        assert_eq!(number_after(|it| it.correction_back = back), Some(6));
    }
    for back in [127, 129, 176, 224, 0, u32::MAX] {
        assert_eq!(number_after(|it| it.height_back = back), Some(6));
    }
}
