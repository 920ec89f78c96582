//! One axis of a grid.

/// One axis: its bounds and spacing in nd, and its number of nodes.
#[derive(Clone, Copy)]
pub struct Axis {
    start: i64,
    end: i64,
    pub spacing: i64,
    pub count: usize,
}

impl Axis {
    /// Question 5 of one axis.
    pub fn new(start: i64, spacing: u32, count: u32, limit: i64) -> Option<Axis> {
        let spacing = i64::from(spacing);
        let end = start.checked_add(spacing * i64::from(count - 1))?;
        let fits = -limit <= start && end <= limit;
        fits.then_some(Axis {
            start,
            end,
            spacing,
            count: count as usize,
        })
    }

    pub fn holds(&self, angle: i64) -> bool {
        self.start <= angle && angle <= self.end
    }

    /// The angle of a node.
    pub fn angle(&self, index: usize) -> i64 {
        self.start + self.spacing * index as i64
    }

    /// Question 20 of one axis: does a dense one lie in this one, both its bounds on nodes, with a
    /// whole part of the spacing?
    pub fn takes_in(&self, dense: &Axis) -> bool {
        let on_node = |angle: i64| self.holds(angle) && (angle - self.start) % self.spacing == 0;
        on_node(dense.start) && on_node(dense.end) && self.spacing % dense.spacing == 0
    }

    /// The index of an angle's cell, and the angle's part of it.
    pub fn place(&self, angle: i64) -> (usize, i64) {
        let offset = angle - self.start;
        let cell = (offset / self.spacing).min(self.count as i64 - 2);
        (cell as usize, offset - cell * self.spacing)
    }
}
