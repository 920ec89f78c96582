//! The slips, each with a test of its own.

mod dense_grid;
mod editions;
mod files;
mod past_the_edge;
mod planes;
