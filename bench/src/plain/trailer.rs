//! The numbers of a trailer, and questions 3 to 5 of the geometries in it.

use super::axis::Axis;
use super::Number;

/// A geometry's axes, latitude first.
pub type Axes = (Axis, Axis);

/// A trailer's bytes.
pub struct Trailer<'a>(pub &'a [u8]);

impl Trailer<'_> {
    fn long(&self, at: usize) -> i64 {
        i64::from_le_bytes(self.0[at..at + 8].try_into().expect("8 bytes"))
    }

    pub fn short(&self, at: usize) -> u32 {
        u32::from_le_bytes(self.0[at..at + 4].try_into().expect("4 bytes"))
    }

    /// Question 5 of the geometry at a byte: its axes.
    pub fn axes(&self, at: usize) -> Option<Axes> {
        let (rows, columns) = (self.short(at + 24), self.short(at + 28));
        let latitude = Axis::new(self.long(at), self.short(at + 16), rows, 90_000_000_000)?;
        let longitude = Axis::new(
            self.long(at + 8),
            self.short(at + 20),
            columns,
            180_000_000_000,
        )?;
        Some((latitude, longitude))
    }
}

/// Question 3 of the geometry at a byte.
pub fn counts_fit(trailer: &Trailer, at: usize) -> bool {
    let fits = |count: u32| (2..=4_096).contains(&count);
    fits(trailer.short(at + 24)) && fits(trailer.short(at + 28))
}

/// Question 4 of the geometry at a byte.
pub fn spacings_fit(trailer: &Trailer, at: usize) -> bool {
    let fits = |spacing: u32| (1..=100_000_000).contains(&spacing);
    fits(trailer.short(at + 16)) && fits(trailer.short(at + 20))
}

/// Questions 3 to 5 of geometries, each by a trailer and a byte: each question is put to all of them
/// before the next.
pub fn all_axes<const GRIDS: usize>(
    geometries: [(&Trailer, usize); GRIDS],
) -> Result<[Axes; GRIDS], Number> {
    if !geometries
        .iter()
        .all(|(trailer, at)| counts_fit(trailer, *at))
    {
        return Err(3);
    }
    if !geometries
        .iter()
        .all(|(trailer, at)| spacings_fit(trailer, *at))
    {
        return Err(4);
    }
    let axes = geometries.map(|(trailer, at)| trailer.axes(at));
    if axes.iter().any(Option::is_none) {
        return Err(5);
    }
    Ok(axes.map(|it| it.expect("axes in bounds")))
}
