//! Grids as images of edition 1 and of edition 2, of each of its kinds.

mod dense;
mod made_up;
#[cfg(test)]
mod tests;

pub use dense::middle_of;
pub use made_up::{
    narrow_heights, national, own_heights, wide_heights, with_count, zeros, CORRECTION_SPACINGS,
    HEIGHT_SPACINGS,
};

/// The editions of the image, of the second all kinds.
#[derive(Clone, Copy, Debug, PartialEq, Eq)]
pub enum Edition {
    /// The three values together in a node.
    First,
    /// The heights on a grid of their own.
    Second,
    /// A dense grid inside the corrections too.
    SecondDense,
    /// Answers past the edge too.
    SecondUnbounded,
    /// All latitude corrections, then all longitude corrections.
    SecondPlanes,
}

impl Edition {
    pub const ALL: [Edition; 5] = [
        Edition::First,
        Edition::Second,
        Edition::SecondDense,
        Edition::SecondUnbounded,
        Edition::SecondPlanes,
    ];

    /// In a word of the command line and of a file's name.
    pub fn word(self) -> &'static str {
        match self {
            Edition::First => "1",
            Edition::Second => "2",
            Edition::SecondDense => "2-dense",
            Edition::SecondUnbounded => "2-unbounded",
            Edition::SecondPlanes => "2-planes",
        }
    }

    /// The edition of a word.
    pub fn of_word(word: &str) -> Option<Edition> {
        Edition::ALL.into_iter().find(|it| it.word() == word)
    }

    /// In words of the table.
    pub fn words(self) -> &'static str {
        match self {
            Edition::First => "Edition 1",
            Edition::Second => "Edition 2",
            Edition::SecondDense => "Kind 1 (edition 2 with a dense grid)",
            Edition::SecondUnbounded => "Kind 2 (edition 2 past the edge)",
            Edition::SecondPlanes => "Kind 3 (edition 2 with corrections in planes)",
        }
    }
}

/// Bounds and spacings in nd, and the number of rows and columns.
#[derive(Clone, Copy, Debug, PartialEq, Eq)]
pub struct Geometry {
    pub south: i64,
    pub west: i64,
    pub latitude_spacing: u32,
    pub longitude_spacing: u32,
    pub rows: u32,
    pub columns: u32,
}

/// A grid as its image.
pub struct Grid {
    pub edition: Edition,
    /// The corrections' geometry.
    pub corrections: Geometry,
    /// The heights' geometry, in edition 1 the corrections'.
    pub heights: Geometry,
    /// The dense corrections' geometry, in kind 1.
    pub dense: Option<Geometry>,
    pub image: Vec<u8>,
}

impl Geometry {
    /// From the south bound to the north bound, in nd.
    pub fn height(&self) -> i64 {
        i64::from(self.latitude_spacing) * i64::from(self.rows - 1)
    }

    /// From the west bound to the east bound, in nd.
    pub fn width(&self) -> i64 {
        i64::from(self.longitude_spacing) * i64::from(self.columns - 1)
    }

    /// The number of nodes.
    pub fn nodes(&self) -> usize {
        self.rows as usize * self.columns as usize
    }

    /// Each row and column, in the nodes' order.
    pub fn places(&self) -> impl Iterator<Item = (u32, u32)> {
        let columns = self.columns;
        (0..self.rows).flat_map(move |row| (0..columns).map(move |column| (row, column)))
    }

    /// The nodes before the node of a row and a column.
    fn index(&self, row: u32, column: u32) -> usize {
        row as usize * self.columns as usize + column as usize
    }

    /// As a trailer has it.
    fn bytes(&self) -> Vec<u8> {
        let mut bytes = Vec::new();
        for bound in [self.south, self.west] {
            bytes.extend(bound.to_le_bytes());
        }
        let spacings = [self.latitude_spacing, self.longitude_spacing];
        for number in spacings.into_iter().chain([self.rows, self.columns]) {
            bytes.extend(number.to_le_bytes());
        }
        bytes
    }
}

impl Grid {
    /// The grid whose values are functions of row and column. Heights with a geometry of their own
    /// make it one of edition 2.
    pub fn new(
        corrections: Geometry,
        heights: Option<Geometry>,
        correction: impl Fn(u32, u32) -> [i32; 2],
        height: impl Fn(u32, u32) -> i32,
    ) -> Grid {
        let mut grid = Grid::of_zeros(corrections, heights);
        grid.put_corrections(correction);
        for (row, column) in grid.heights.places() {
            grid.put(grid.height_at(row, column), height(row, column));
        }
        grid
    }

    /// The grid whose values are all zero.
    pub fn of_zeros(corrections: Geometry, heights: Option<Geometry>) -> Grid {
        let edition = heights.map_or(Edition::First, |_| Edition::Second);
        let (back, trailer) = match &heights {
            None => trailer(&corrections),
            Some(heights) => second_trailer(&corrections, heights),
        };
        let mut image = vec![0; back];
        image[back - trailer.len()..].copy_from_slice(&trailer);
        let heights = heights.unwrap_or(corrections);
        Grid {
            edition,
            corrections,
            heights,
            dense: None,
            image,
        }
    }

    /// A grid of edition 2 with dense corrections, functions of row and column, before it.
    pub fn with_dense(
        mut self,
        dense: Geometry,
        correction: impl Fn(u32, u32) -> [i32; 2],
    ) -> Grid {
        let back = dense_bytes(&dense) + self.image.len();
        let mut image = Vec::with_capacity(back);
        for (row, column) in dense.places() {
            for value in correction(row, column) {
                image.extend(value.to_le_bytes());
            }
        }
        image.extend(dense.bytes());
        image.extend((back as u32).to_le_bytes());
        image.append(&mut self.image);
        self.edition = Edition::SecondDense;
        self.dense = Some(dense);
        self.image = image;
        self.put_kind(1);
        self
    }

    /// A grid of edition 2 that answers past the edge.
    pub fn unbounded(mut self) -> Grid {
        self.edition = Edition::SecondUnbounded;
        self.put_kind(2);
        self
    }

    /// A grid of edition 2 with its corrections in planes.
    pub fn in_planes(self) -> Grid {
        let mut planes = Grid {
            edition: Edition::SecondPlanes,
            image: self.image.clone(),
            ..self
        };
        planes.put_corrections(|row, column| self.correction(row, column));
        planes.put_kind(3);
        planes
    }

    /// The image of the same grid of kind 0, without dense corrections.
    pub fn image_of_kind_0(&self) -> Vec<u8> {
        let mut coarse = Grid {
            edition: Edition::Second,
            dense: None,
            image: self.image[self.first()..].to_vec(),
            ..*self
        };
        coarse.put_corrections(|row, column| self.correction(row, column));
        coarse.put_kind(0);
        coarse.image
    }

    /// The bytes before the first node of the corrections that are not dense.
    fn first(&self) -> usize {
        self.dense.as_ref().map_or(0, dense_bytes)
    }

    fn put_corrections(&mut self, correction: impl Fn(u32, u32) -> [i32; 2]) {
        for (row, column) in self.corrections.places() {
            let places = self.correction_places(row, column);
            for (at, value) in places.into_iter().zip(correction(row, column)) {
                self.put(at, value);
            }
        }
    }

    fn put_kind(&mut self, kind: i32) {
        self.put(self.image.len() - 8, kind);
    }

    /// The corrections of the node of a row and a column.
    pub fn correction(&self, row: u32, column: u32) -> [i32; 2] {
        let places = self.correction_places(row, column);
        places.map(|at| self.number_at(at))
    }

    /// The height of the node of a row and a column.
    pub fn height(&self, row: u32, column: u32) -> i32 {
        self.number_at(self.height_at(row, column))
    }

    /// The dense corrections of the node of a row and a column.
    pub fn dense_correction(&self, row: u32, column: u32) -> [i32; 2] {
        let dense = self.dense.as_ref().expect("a dense grid");
        let at = 8 * dense.index(row, column);
        [at, at + 4].map(|at| self.number_at(at))
    }

    /// The number of nodes: those of all grids.
    pub fn nodes(&self) -> usize {
        match self.edition {
            Edition::First => self.corrections.nodes(),
            _ => {
                let dense = self.dense.as_ref().map_or(0, Geometry::nodes);
                dense + self.corrections.nodes() + self.heights.nodes()
            }
        }
    }

    /// Where the corrections of the node of a row and a column stand in the image.
    pub fn correction_places(&self, row: u32, column: u32) -> [usize; 2] {
        let (node_bytes, to_longitude) = match self.edition {
            Edition::First => (12, 4),
            Edition::SecondPlanes => (4, 4 * self.corrections.nodes()),
            _ => (8, 4),
        };
        let at = self.first() + node_bytes * self.corrections.index(row, column);
        [at, at + to_longitude]
    }

    fn height_at(&self, row: u32, column: u32) -> usize {
        let index = self.heights.index(row, column);
        match self.edition {
            Edition::First => 12 * index + 8,
            _ => self.first() + 8 * self.corrections.nodes() + 4 * index,
        }
    }

    fn number_at(&self, at: usize) -> i32 {
        i32::from_le_bytes(self.image[at..][..4].try_into().expect("four bytes"))
    }

    fn put(&mut self, at: usize, value: i32) {
        self.image[at..][..4].copy_from_slice(&value.to_le_bytes());
    }
}

/// The bytes of dense nodes with the geometry and the back behind them.
fn dense_bytes(dense: &Geometry) -> usize {
    8 * dense.nodes() + 36
}

/// Edition 1's back and trailer.
fn trailer(geometry: &Geometry) -> (usize, Vec<u8>) {
    let back = 12 * geometry.nodes() + 40;
    let mut bytes = geometry.bytes();
    for number in [back as u32, 1] {
        bytes.extend(number.to_le_bytes());
    }
    (back, bytes)
}

/// Edition 2's back to the correction nodes, and its trailer.
fn second_trailer(corrections: &Geometry, heights: &Geometry) -> (usize, Vec<u8>) {
    let height_back = 4 * heights.nodes() + 80;
    let back = 8 * corrections.nodes() + height_back;
    let mut bytes = [corrections, heights].map(Geometry::bytes).concat();
    for number in [back as u32, height_back as u32, 0, 2] {
        bytes.extend(number.to_le_bytes());
    }
    (back, bytes)
}
