//! The order of the questions across the three grids, with 20 and 14 behind them.

use crate::images::{small_image, GEOMETRIES};
use reference::{grid_check, list_out, open_image, Geometry, Number};

/// One of the three grids.
#[derive(Clone, Copy, PartialEq, Eq)]
enum Which {
    Corrections,
    Heights,
    Dense,
}

/// The geometries and backs as an image has them.
struct Fields {
    geometries: [Geometry; 3],
    backs: [u32; 3],
}

impl Fields {
    fn right() -> Fields {
        let (trailer, dense) = (GEOMETRIES.trailer(), GEOMETRIES.dense_trailer());
        Fields {
            geometries: [trailer.corrections, trailer.heights, dense.geometry],
            backs: [trailer.correction_back, trailer.height_back, dense.back],
        }
    }

    /// Changes one grid's fields so that the answer to a question, 3 to 6, is no.
    fn break_for(&mut self, question: Number, which: Which) {
        let geometry = &mut self.geometries[which as usize];
        match question {
            3 => geometry.rows = 1,
            4 => geometry.longitude_spacing = 0,
            5 => geometry.west = i64::MIN,
            _ => self.backs[which as usize] += 8,
        }
    }

    /// The small image with these fields. Where the back to the correction nodes is larger, bytes
    /// stand before them, so that the 36 bytes are found as before.
    fn image(&self) -> Vec<u8> {
        let mut trailer = GEOMETRIES.trailer();
        let mut dense = GEOMETRIES.dense_trailer();
        let added = self.backs[0] - trailer.correction_back;
        [trailer.corrections, trailer.heights, dense.geometry] = self.geometries;
        [trailer.correction_back, trailer.height_back, dense.back] = self.backs;
        let image = small_image();
        [
            &image[..120],
            &dense.write(),
            &vec![0; added as usize],
            &image[156..380],
            &trailer.write(),
        ]
        .concat()
    }
}

#[test]
fn each_question_is_put_to_all_three_grids_before_the_next_one() {
    for of_corrections in 3..=6 {
        for of_heights in 3..=6 {
            for of_dense in 3..=6 {
                let mut fields = Fields::right();
                fields.break_for(of_corrections, Which::Corrections);
                fields.break_for(of_heights, Which::Heights);
                fields.break_for(of_dense, Which::Dense);
                let number = open_image(&fields.image()).err();
                let first = of_corrections.min(of_heights).min(of_dense);
                assert_eq!(number, Some(first));
            }
        }
    }
}

#[test]
fn each_question_is_put_to_each_grid_alone() {
    assert_eq!(open_image(&Fields::right().image()).err(), None);
    for question in 3..=6 {
        for which in [Which::Corrections, Which::Heights, Which::Dense] {
            let mut fields = Fields::right();
            fields.break_for(question, which);
            assert_eq!(open_image(&fields.image()).err(), Some(question));
        }
    }
}

/// A dense grid that lies 1 nd further north.
fn misaligned() -> Fields {
    let mut fields = Fields::right();
    fields.geometries[Which::Dense as usize].south += 1;
    fields
}

#[test]
fn number_20_comes_after_3_to_6_of_every_grid() {
    assert_eq!(open_image(&misaligned().image()).err(), Some(20));
    for question in 3..=6 {
        for which in [Which::Corrections, Which::Heights, Which::Dense] {
            let mut fields = misaligned();
            fields.break_for(question, which);
            assert_eq!(open_image(&fields.image()).err(), Some(question));
        }
    }
}

#[test]
fn number_20_comes_before_14_and_before_any_fix() {
    let image = misaligned().image();
    let beyond = [i64::MAX; 3];
    assert_eq!(list_out(&image, &beyond, 5), Err(20));
    assert_eq!(list_out(&image, &beyond, 4), Err(20));
    assert_eq!(list_out(&image, &[], 0), Err(20));
    assert_eq!(list_out(&small_image(), &beyond, 4), Err(14));
}

/// Question 9's and 12's answers would be no too.
#[test]
fn number_20_comes_before_9_and_12() {
    let mut image = misaligned().image();
    image[..4].copy_from_slice(&i32::MAX.to_le_bytes());
    assert_eq!(grid_check(&image), Err(20));
}
