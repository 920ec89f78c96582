//! The measurements of the converters between kinds 0 and 3: bytes per second.

use crate::converter_agreement;
use crate::measure::{median_seconds, Work};
use bench::converters::{Converter, Direction};
use bench::grid::Grid;
use std::hint::black_box;

/// All that was measured of the converters.
#[derive(Default)]
pub struct ConverterSpeeds {
    /// Bytes per second of the library and the plain implementation in each direction, by grid size.
    pub by_size: Vec<[[f64; 2]; 2]>,
    /// Images and buffers that both implementations refused with the same number.
    pub refused: usize,
}

/// Bytes per second over a grid of kind 3 and the same of kind 0, after both implementations were
/// seen to agree on them. The bytes are those of the image.
pub fn measure(grid: &Grid, repeats: usize) -> [[f64; 2]; 2] {
    converter_agreement::require(grid);
    Direction::ALL.map(|direction| {
        let [image, _] = direction.images(grid);
        let work = |convert: Converter| -> Work {
            let (image, mut buffer) = (&image, vec![0; image.len()]);
            Box::new(move || {
                convert(black_box(image), black_box(&mut buffer));
            })
        };
        let seconds = median_seconds(&mut direction.converters().map(work), repeats);
        seconds.map(|seconds| image.len() as f64 / seconds)
    })
}
