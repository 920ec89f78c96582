//! What is compared: any implementation of the papers' calls, and the reference as one.

use crate::{Format, Way};
use reference::{Arrangement, Axis, Converted, Geometry, Notation, Number};

/// What the conversion of a file is lent to write to: the buffer for nodes; that for the nodes of a
/// subgrid, which VDatum files do not have; and the geometry's numbers, six for each grid that
/// files of the format can have.
pub struct FileRoom<'a> {
    pub nodes: &'a mut [u8],
    pub dense: &'a mut [u8],
    pub geometry: &'a mut [i64],
}

impl FileRoom<'_> {
    pub fn buffer_lengths(&self) -> [usize; 2] {
        [self.nodes.len(), self.dense.len()]
    }

    /// Stores what a file gives.
    pub fn store(&mut self, grids: &[Converted]) {
        let buffers = [&mut *self.nodes, &mut *self.dense];
        for (buffer, grid) in buffers.into_iter().zip(grids) {
            buffer.copy_from_slice(&grid.nodes);
        }
        self.store_geometry(grids);
    }

    /// South, west, latitude spacing, longitude spacing, rows and columns of each grid, and zeros
    /// for one that the file does not have.
    pub fn store_geometry(&mut self, grids: &[Converted]) {
        self.geometry.fill(0);
        for (numbers, grid) in self.geometry.chunks_exact_mut(6).zip(grids) {
            numbers.copy_from_slice(&geometry_numbers(&grid.geometry));
        }
    }
}

/// The calls. Each returns the papers' number, 0 for none, and leaves what it was lent
/// unchanged unless the call gives values.
///
/// Image, fixes and file are only read by a right converter. They are handed over as changeable so
/// that the comparison sees a write by a wrong one.
pub trait Converter {
    fn grid_check(&self, image: &mut [u8], findings: &mut [i64; 6]) -> Number;

    fn list(&self, way: Way, image: &mut [u8], fixes: &mut [i64], answers: &mut [i64]) -> Number;

    fn read_notation(&self, axis: Axis, notation: Notation, nd: &mut i64) -> Number;

    /// Writes degrees, minutes, hundred-thousandths and the letter's byte.
    fn write_notation(&self, axis: Axis, nd: i64, notation: &mut [u64; 4]) -> Number;

    fn convert_file(&self, format: Format, file: &mut [u8], room: FileRoom) -> Number;

    /// Writes the image with its corrections arranged so.
    fn arrange(&self, arrangement: Arrangement, image: &mut [u8], buffer: &mut [u8]) -> Number;
}

/// The reference.
pub struct Reference;

impl Converter for Reference {
    fn grid_check(&self, image: &mut [u8], findings: &mut [i64; 6]) -> Number {
        let found = reference::grid_check(image);
        let narrow = |finding| i64::try_from(finding).expect("a step fits 64 bits");
        number_after(found, |found| *findings = found.map(narrow))
    }

    fn list(&self, way: Way, image: &mut [u8], fixes: &mut [i64], answers: &mut [i64]) -> Number {
        let answered = match way {
            Way::Out => reference::list_out(image, fixes, answers.len()),
            Way::Back => reference::list_back(image, fixes, answers.len()),
        };
        number_after(answered, |values| answers.copy_from_slice(&values))
    }

    fn read_notation(&self, axis: Axis, notation: Notation, nd: &mut i64) -> Number {
        let read = reference::read_notation(axis, notation);
        number_after(read, |value| *nd = value)
    }

    fn write_notation(&self, axis: Axis, nd: i64, notation: &mut [u64; 4]) -> Number {
        let written = reference::write_notation(axis, nd);
        number_after(written, |value| *notation = fields(value))
    }

    fn convert_file(&self, format: Format, file: &mut [u8], mut room: FileRoom) -> Number {
        let converted = format.convert(file, room.buffer_lengths());
        number_after(converted, |grids| room.store(&grids))
    }

    fn arrange(&self, arrangement: Arrangement, image: &mut [u8], buffer: &mut [u8]) -> Number {
        let arranged = reference::arrange(arrangement, image, buffer.len());
        number_after(arranged, |bytes| buffer.copy_from_slice(&bytes))
    }
}

/// Stores the values and gives 0, or gives the number alone.
pub fn number_after<T>(result: Result<T, Number>, store: impl FnOnce(T)) -> Number {
    match result {
        Ok(values) => {
            store(values);
            0
        }
        Err(number) => number,
    }
}

/// A notation as the four numbers that the C interface writes.
pub fn fields(notation: Notation) -> [u64; 4] {
    [
        notation.degrees,
        notation.minutes,
        notation.hundred_thousandths,
        notation.letter.into(),
    ]
}

/// A geometry as the six numbers that the C interface writes.
pub fn geometry_numbers(geometry: &Geometry) -> [i64; 6] {
    [
        geometry.south,
        geometry.west,
        geometry.latitude_spacing.into(),
        geometry.longitude_spacing.into(),
        geometry.rows.into(),
        geometry.columns.into(),
    ]
}
