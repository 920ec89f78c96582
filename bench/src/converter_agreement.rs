//! That the implementations convert images between kinds 0 and 3 alike, and refuse the same ones.

use crate::refusals;
use bench::converters::Direction;
use bench::grid::{self, Grid};
use bench::Edition;

/// An image, its buffer's length, and the number with which they are refused.
type Refused = (Vec<u8>, usize, i64);

/// What a buffer holds before a call.
const FILLING: u8 = 0xEE;

/// Compares what both make of a grid of kind 3 and of the same of kind 0: each the other's image.
pub fn require(grid: &Grid) {
    for direction in Direction::ALL {
        let [image, wanted] = direction.images(grid);
        let (number, buffer) = compared(direction, &image, wanted.len());
        let words = direction.words();
        assert_eq!(number, 0, "the image is refused: {words}");
        assert!(buffer == wanted, "another image: {words}");
    }
}

/// Compares the numbers of images and buffers that are refused, after which the buffer is unchanged,
/// and how many there were. What stands before an image's first node is not converted.
pub fn require_refusals() -> usize {
    let grid = grid::national(Edition::SecondPlanes, 21, 21);
    let of_direction = |direction: Direction| {
        let [image, wanted] = direction.images(&grid);
        let longer = [&[7; 3], &image[..]].concat();
        let found = compared(direction, &longer, wanted.len());
        assert!(found == (0, wanted), "the bytes before an image count");
        let mut refused = wrong_buffers(&image, &longer);
        refused.extend(wrong_images(&image));
        for (image, length, number) in &refused {
            let (found, buffer) = compared(direction, image, *length);
            assert_eq!(found, *number, "another number");
            let unchanged = buffer.iter().all(|byte| *byte == FILLING);
            assert!(unchanged, "a refusal changes the buffer");
        }
        refused.len()
    };
    Direction::ALL.into_iter().map(of_direction).sum()
}

/// An image that is converted, and the same with bytes before it, with wrong buffers.
fn wrong_buffers(image: &[u8], longer: &[u8]) -> Vec<Refused> {
    let length = image.len();
    let lengths = [0, 80, length - 8, length - 1, length + 1, 2 * length];
    let mut refused = lengths.map(|it| (image.to_vec(), it, 14)).to_vec();
    refused.push((longer.to_vec(), longer.len(), 14));
    refused
}

/// Images of other kinds and of edition 1, and unfit ones, each with a buffer for the image that is
/// converted and with a longer one.
fn wrong_images(converted: &[u8]) -> Vec<Refused> {
    let others = Edition::ALL.map(|edition| grid::national(edition, 21, 21).image);
    let others = others.into_iter().filter(|it| it != converted);
    let others = others.map(|image| (image, 2)).chain(refusals::unfit());
    let lengths = [converted.len(), converted.len() + 1];
    let with_lengths =
        |(image, number): (Vec<u8>, i64)| lengths.map(|it| (image.clone(), it, number));
    others.flat_map(with_lengths).collect()
}

/// The number of a call and what the buffer holds after it, the same by both implementations.
fn compared(direction: Direction, image: &[u8], length: usize) -> (i64, Vec<u8>) {
    let [found, expected] = direction.converters().map(|convert| {
        let mut buffer = vec![FILLING; length];
        (convert(image, &mut buffer), buffer)
    });
    let words = direction.words();
    assert!(found == expected, "the converters differ: {words}");
    found
}
