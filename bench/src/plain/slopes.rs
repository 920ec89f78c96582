//! The grid check of one grid's nodes.

use super::nodes::Nodes;
use super::Number;

/// A value's largest steps between neighbours in latitude and in longitude.
pub type Steps = [i64; 2];

impl<const VALUES: usize, const HEIGHT: usize> Nodes<'_, VALUES, HEIGHT> {
    /// Question 9 over all nodes, and each value's largest steps.
    pub fn steps(&self) -> Result<[Steps; VALUES], Number> {
        let mut steps = [[0; 2]; VALUES];
        let row_bytes = Self::NODE_BYTES * self.longitude.count;
        let mut south = &self.nodes[..row_bytes];
        for row in self.nodes.chunks_exact(row_bytes) {
            Self::widen(&mut steps, south, row)?;
            south = row;
        }
        Ok(steps)
    }

    /// Question 9 over a row, and the largest steps with those in the row and from its southern
    /// neighbour. The first node stands as its own western neighbour.
    fn widen(steps: &mut [Steps; VALUES], south: &[u8], row: &[u8]) -> Result<(), Number> {
        let mut found = *steps;
        let mut west = Self::values(row);
        let nodes = row.chunks_exact(Self::NODE_BYTES);
        for (node, below) in nodes.zip(south.chunks_exact(Self::NODE_BYTES)) {
            let (here, below) = (Self::values(node), Self::values(below));
            for k in 0..VALUES {
                if !Self::fits(k, here[k]) {
                    return Err(9);
                }
                let step = |other: i32| (i64::from(here[k]) - i64::from(other)).abs();
                found[k][0] = found[k][0].max(step(below[k]));
                found[k][1] = found[k][1].max(step(west[k]));
            }
            west = here;
        }
        *steps = found;
        Ok(())
    }

    /// Question 12 of each value.
    pub fn judge_slopes(&self, steps: &[Steps; VALUES]) -> Result<(), Number> {
        let (p, q) = (
            i128::from(self.latitude.spacing),
            i128::from(self.longitude.spacing),
        );
        for [north, east] in steps {
            if 100 * (i128::from(*north) * q + i128::from(*east) * p) > p * q {
                return Err(12);
            }
        }
        Ok(())
    }
}
