//! The refusals of both conversions, in their order: the image's number, 2 for another kind or
//! edition, 14 for the buffer.

use crate::common::grid_g;
use crate::images::{changed, in_nodes, in_planes, with_dense_grid, TRAILER};
use reference::{arrange, open_image, Arrangement, Number, TwoGridTrailer};

const ARRANGEMENTS: [Arrangement; 2] = [Arrangement::Nodes, Arrangement::Planes];

/// The image that a conversion takes.
fn right_image(arrangement: Arrangement) -> Vec<u8> {
    match arrangement {
        Arrangement::Nodes => in_planes(),
        Arrangement::Planes => in_nodes(0),
    }
}

/// The number of a conversion, the same for a buffer of the image's length, an empty one and a longer
/// one.
fn number_before_the_buffer(arrangement: Arrangement, image: &[u8]) -> Option<Number> {
    let number = |length| arrange(arrangement, image, length).err();
    let first = number(image.len());
    for length in [0, image.len() + 1] {
        assert_eq!(number(length), first);
    }
    first
}

#[test]
fn other_kinds_and_editions_give_2_before_14() {
    for arrangement in ARRANGEMENTS {
        let own_kind = right_image(arrangement.other());
        for image in [grid_g(), with_dense_grid(0), in_nodes(2), own_kind] {
            assert!(open_image(&image).is_ok());
            assert_eq!(number_before_the_buffer(arrangement, &image), Some(2));
        }
    }
}

#[test]
fn unknown_kinds_and_editions_give_2() {
    for arrangement in ARRANGEMENTS {
        let image = right_image(arrangement);
        for number in [4, 256, 259, u32::MAX] {
            let of_kind = changed(&image, |it| it.kind = number);
            assert_eq!(number_before_the_buffer(arrangement, &of_kind), Some(2));
            let of_edition = changed(&image, |it| it.edition = number);
            assert_eq!(number_before_the_buffer(arrangement, &of_edition), Some(2));
        }
    }
}

/// Numbers 3 to 6 of the images of edition 2 that a conversion takes, and of those that get a 2.
#[test]
fn the_images_number_comes_before_2_and_14() {
    let changes: [(Number, fn(&mut TwoGridTrailer)); 6] = [
        (3, |it| it.corrections.rows = 1),
        (3, |it| it.heights.columns = 0),
        (4, |it| it.corrections.latitude_spacing = 0),
        (5, |it| it.heights.south = i64::MIN),
        (6, |it| it.correction_back += 4),
        (6, |it| it.height_back -= 4),
    ];
    for arrangement in ARRANGEMENTS {
        for image in [in_nodes(0), in_nodes(2), in_planes()] {
            for (number, change) in changes {
                let image = changed(&image, change);
                assert_eq!(number_before_the_buffer(arrangement, &image), Some(number));
            }
            let short = &image[1..];
            assert_eq!(number_before_the_buffer(arrangement, short), Some(6));
            let shorter = &image[image.len() - TRAILER + 1..];
            assert_eq!(number_before_the_buffer(arrangement, shorter), Some(1));
        }
    }
}

/// Of edition 1 its rows; of kind 1 its 36 bytes, 1, and a dense grid 1 nd further north, 20.
#[test]
fn so_do_those_of_edition_1_and_of_kind_1() {
    let mut one_row = grid_g();
    one_row[132] = 1;
    let short = changed(&with_dense_grid(0), |it| it.correction_back = u32::MAX);
    let misaligned = with_dense_grid(1);
    for arrangement in ARRANGEMENTS {
        for (number, image) in [(3, &one_row), (1, &short), (20, &misaligned)] {
            assert_eq!(number_before_the_buffer(arrangement, image), Some(number));
        }
        assert_eq!(number_before_the_buffer(arrangement, &[]), Some(1));
        assert_eq!(number_before_the_buffer(arrangement, &[2; 39]), Some(1));
    }
}

/// 224 bytes from the first node on, whatever stands before it.
#[test]
fn buffers_of_another_length_give_14() {
    for arrangement in ARRANGEMENTS {
        for before in [0, 1, 36] {
            let image = [vec![7; before], right_image(arrangement)].concat();
            let number = |length| arrange(arrangement, &image, length).err();
            assert_eq!(number(224), None);
            for length in [0, 80, 96, 144, 220, 223, 225, 228, 448, usize::MAX] {
                assert_eq!(number(length), Some(14));
            }
            let whole = (before > 0).then_some(14);
            assert_eq!(number(image.len()), whole);
        }
    }
}
