//! The grid check.

use crate::dense::border_agrees;
use crate::{ask, open_image, Grid, Image, Number};

/// "A and B": the largest absolute step of one value between neighbours in latitude, and in
/// longitude.
type Steps = [i128; 2];

/// "After 1 to 6, question 9 over all nodes", then question 12, under kind 2 22 before it, with a
/// dense grid 21 after it. "A pass reports A and B for latitude correction, longitude correction and
/// height".
pub fn grid_check(bytes: &[u8]) -> Result<[i128; 6], Number> {
    let steps = match open_image(bytes)? {
        Image::OneGrid(nodes) => {
            ask(all_nodes_fit(&nodes), 9)?;
            allowed_steps(&nodes)?
        }
        Image::TwoGrids {
            corrections,
            heights,
            dense,
            unbounded,
        } => {
            let dense = dense.as_ref();
            ask(all_nodes_fit(&corrections) && all_nodes_fit(&heights), 9)?;
            ask(dense.into_iter().all(all_nodes_fit), 9)?;
            // "Refusal 22, in the check before 12: a border node has a correction other than zero."
            ask(!unbounded || border_is_zero(&corrections), 22)?;
            // "The slope test uses each grid's own spacings."
            let [latitude, longitude] = allowed_steps(&corrections)?;
            let [height] = allowed_steps(&heights)?;
            if let Some(dense) = dense {
                // "The slope test takes it too; A and B are the coarse grid's."
                allowed_steps(dense)?;
                // "Refusal 21, in the check after 12: the border differs."
                ask(border_agrees(dense, &corrections), 21)?;
            }
            [latitude, longitude, height]
        }
    };
    Ok(std::array::from_fn(|field| steps[field / 2][field % 2]))
}

fn all_nodes_fit<const VALUES: usize>(grid: &Grid<VALUES>) -> bool {
    grid.geometry
        .node_places()
        .all(|(row, column)| grid.node_fits(&grid.node(row, column)))
}

/// Are both corrections 0 at every node of the first and last row and of the first and last column?
fn border_is_zero(corrections: &Grid<2>) -> bool {
    let mut border = corrections.geometry.border_places();
    border.all(|(row, column)| corrections.node(row, column) == [0, 0])
}

/// A and B of each value, if question 12 allows them.
fn allowed_steps<const VALUES: usize>(grid: &Grid<VALUES>) -> Result<[Steps; VALUES], Number> {
    let steps = largest_steps(grid);
    let (p, q) = grid.geometry.spacings();
    // "Question 12: is 100 × (A × Q + B × P) at most P × Q for each value? Else 12."
    let allowed = |[a, b]: &Steps| 100 * (a * q + b * p) <= p * q;
    ask(steps.iter().all(allowed), 12)?;
    Ok(steps)
}

/// "For each of the three values let A be the largest absolute step between neighbours in
/// latitude and B in longitude."
fn largest_steps<const VALUES: usize>(grid: &Grid<VALUES>) -> [Steps; VALUES] {
    std::array::from_fn(|value| {
        let in_latitude = largest_step(grid, value, (1, 0));
        let in_longitude = largest_step(grid, value, (0, 1));
        [in_latitude, in_longitude]
    })
}

/// The largest absolute step of one value to the neighbour so many rows and columns on.
fn largest_step<const VALUES: usize>(
    grid: &Grid<VALUES>,
    value: usize,
    (rows_on, columns_on): (i128, i128),
) -> i128 {
    let (rows, columns) = (grid.geometry.rows.into(), grid.geometry.columns.into());
    let at = |row, column| i128::from(grid.node(row, column)[value]);
    grid.geometry
        .node_places()
        .filter(|(row, column)| row + rows_on < rows && column + columns_on < columns)
        .map(|(row, column)| (at(row + rows_on, column + columns_on) - at(row, column)).abs())
        .fold(0, i128::max)
}
