//! VDatum files, document 02's note 2: the limits of every number of the header, the nodes, and the
//! order of the two refusals.

mod files;
mod header;
mod lengths;
mod nodes;
