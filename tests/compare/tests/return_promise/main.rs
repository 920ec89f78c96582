//! The return promise, demand 3, tried with the reference on made-up grids that pass the check;
//! what document 02's note 5 keeps of it with a dense grid; and what its note 6 promises of every
//! fix.

mod past_the_edge;
mod trips;
mod with_dense_grid;
mod without_dense_grid;
