//! What the conversions of the two kinds of grid files share.

use crate::float::Width;
use crate::{Fraction, Geometry};

/// How the bits of a float of some width become the nearest whole number at a scale; nothing if it
/// is not finite or too far from zero for any limit.
pub trait Nearest: Fn(Width, u64, Fraction) -> Option<i128> {}

impl<Function: Fn(Width, u64, Fraction) -> Option<i128>> Nearest for Function {}

/// What a grid of a converted file gives: the geometry, "handed back", and the height nodes or the
/// correction nodes of an edition 2 image in bytes.
#[derive(Clone, Debug, PartialEq, Eq)]
pub struct Converted {
    pub geometry: Geometry,
    pub nodes: Vec<u8>,
}
