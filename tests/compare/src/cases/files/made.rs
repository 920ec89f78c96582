//! What is done with a file of either format before it is written, and how large its grid is.

use super::values::Limits;
use crate::cases::geometry::LINES_LIMIT;
use crate::random::Random;
use crate::File;

/// A file before it is written.
pub trait Made {
    const LIMITS: Limits;

    /// The file with a buffer for its nodes.
    fn exact(&self) -> File;

    fn node_count(&self) -> usize;

    /// Some value of a node.
    fn value(&mut self, random: &mut Random, node: usize) -> &mut u32;

    /// Breaks one thing that the headers say.
    fn break_one(&mut self, random: &mut Random);

    /// Makes the nodes suit what the headers say after some of it was broken.
    fn suit_nodes(&mut self, random: &mut Random);

    /// Makes some node unfit, the last one often, or a few of them. A broken header may have left
    /// none.
    fn spoil(&mut self, random: &mut Random) {
        let length = self.node_count();
        if length == 0 {
            return;
        }
        for _ in 0..random.pick(&[1, 1, 1, 1, 2, 3]) {
            let any = random.below(length as u64) as usize;
            let node = random.pick(&[0, length - 1, length - 1, any, any]);
            let unfit = Self::LIMITS.unfit_value(random);
            *self.value(random, node) = unfit;
        }
    }

    /// Breaks one thing in the headers most often, else two or three.
    fn break_headers(&mut self, random: &mut Random) {
        for _ in 0..random.pick(&[1, 1, 1, 1, 2, 3]) {
            self.break_one(random);
        }
        self.suit_nodes(random);
    }
}

/// Rows and columns: most often few, now and then very many of one of them.
pub fn size(random: &mut Random) -> (i64, i64) {
    let mut both = |low, high| (random.between(low, high), random.between(low, high));
    let (few, some, more) = (both(2, 4), both(2, 8), both(9, 30));
    let long = LINES_LIMIT - random.below(2) as i64;
    match random.below(1_000) {
        0..700 => few,
        700..980 => some,
        980..994 => more,
        994..997 => (2, long),
        _ => (long, 2),
    }
}
