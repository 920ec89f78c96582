//! That the implementations answer alike: the two over whole numbers exactly, those over f64 nearly.

use crate::proj::{self, Pipeline};
use bench::grid::Grid;
use bench::{fixes, library, plain, Edition, GridCheck, Implementation, Way};

/// Fixes on, near and past bounds and limits that are compared beside those of the measurement.
pub const OTHER_FIXES: usize = 10_000;

/// The largest differences of answers from the library's: angles in nd, heights in units of
/// 0.0001 m.
#[derive(Clone, Copy, Debug, Default)]
pub struct Distance {
    pub angle: f64,
    pub height: f64,
}

/// Compares every answer and the grid check of the library and the i128 implementation.
pub fn require(grid: &Grid, fixes: &[i64]) {
    let image = &grid.image[..];
    let both = [Implementation::Library, Implementation::Plain].map(|it| (it, image));
    require_answers(both, fixes);
    require_answers(both, &others(grid));
    require_findings([library::grid_check, plain::grid_check].map(|it| (it, image)));
}

/// Compares every answer and the grid check of the library over a grid of kind 3 and over its image of
/// kind 0.
pub fn require_kind_0(grid: &Grid, of_kind_0: &[u8], fixes: &[i64]) {
    let both = [&grid.image[..], of_kind_0];
    let library = both.map(|image| (Implementation::Library, image));
    require_answers(library, fixes);
    require_answers(library, &others(grid));
    require_findings(both.map(|image| (library::grid_check as GridCheck, image)));
}

/// The first comparison on a grid of edition 2 whose heights leave part of the corrections out, with
/// fixes both ways that get number 15.
pub fn require_off_heights(grid: &Grid) {
    require(grid, &fixes::spread(&grid.heights, OTHER_FIXES));
    for way in [Way::Out, Way::Back] {
        let answers = list_of(Implementation::Plain, way, &grid.image, &others(grid));
        let seen = answers.chunks_exact(5).any(|answer| answer[4] == 15);
        assert!(seen, "no fix {way:?} is off the heights");
    }
}

/// Compares both ways' answers to a list, of two implementations or over two images.
fn require_answers(both: [(Implementation, &[u8]); 2], fixes: &[i64]) {
    for way in [Way::Out, Way::Back] {
        let [found, expected] = both.map(|(it, image)| list_of(it, way, image, fixes));
        assert!(found == expected, "the answers {way:?} differ");
    }
}

/// Compares the findings of two grid checks that pass.
fn require_findings(both: [(GridCheck, &[u8]); 2]) {
    let [found, expected] = both.map(|(grid_check, image)| {
        let mut findings = [-1; 6];
        (grid_check(image, &mut findings), findings)
    });
    assert_eq!(found, expected, "the grid checks differ");
    assert_eq!(found.0, 0, "the grid does not pass");
}

/// Fixes on, near and past the corrections' bounds, and as many for the heights' own, for those of a
/// dense grid and, in kind 2, past the edge.
fn others(grid: &Grid) -> Vec<i64> {
    let heights = (grid.edition != Edition::First).then_some(&grid.heights);
    let geometries = [Some(&grid.corrections), heights, grid.dense.as_ref()];
    let geometries = geometries.into_iter().flatten();
    let around = geometries.flat_map(|it| fixes::anywhere(it, OTHER_FIXES));
    let is_unbounded = grid.edition == Edition::SecondUnbounded;
    let past = is_unbounded.then(|| fixes::past_the_edge(grid, OTHER_FIXES));
    around.chain(past.into_iter().flatten()).collect()
}

/// How far the answers of the f64 implementation and PROJ's lie from the library's. Every fix must
/// be answered.
pub fn distances(grid: &Grid, pipeline: &Pipeline, fixes: &[i64]) -> [Distance; 2] {
    let mut largest = [Distance::default(); 2];
    for way in [Way::Out, Way::Back] {
        let answers = list_of(Implementation::Library, way, &grid.image, fixes);
        let floating = list_of(Implementation::Floating, way, &grid.image, fixes);
        let mut positions = proj::positions(fixes);
        pipeline.convert(way, &mut positions);
        let near = floating.chunks_exact(5);
        let near = near.map(|it| [it[0], it[1], it[2]].map(|it| it as f64));
        largest[0].widen(&answers, near);
        largest[1].widen(&answers, positions.iter().map(proj::in_units));
    }
    largest
}

impl Distance {
    /// With the distances of others' answers, in nd and units, from the library's. Every fix must be
    /// answered.
    pub fn widen(&mut self, answers: &[i64], others: impl Iterator<Item = [f64; 3]>) {
        for (answer, other) in answers.chunks_exact(5).zip(others) {
            assert_eq!(answer[4], 0, "a fix is refused");
            let [north, east, up] = [0, 1, 2].map(|k| (other[k] - answer[k] as f64).abs());
            self.angle = self.angle.max(north).max(east);
            self.height = self.height.max(up);
        }
    }
}

/// The answers of an implementation to a list.
pub fn list_of(implementation: Implementation, way: Way, image: &[u8], fixes: &[i64]) -> Vec<i64> {
    let mut answers = vec![-1; fixes.len() / 3 * 5];
    let number = implementation.list(way, image, fixes, &mut answers);
    assert_eq!(number, 0, "the list call refuses");
    answers
}
