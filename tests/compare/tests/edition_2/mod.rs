//! The same for edition 2: both spacings differ, the height grid is smaller, larger, elsewhere or
//! the same, 15 comes up out and back with every number around it, and every field of the trailer
//! is broken. What kinds 2 and 3 share of this holds for their streams too.

mod damage;
mod grids;
mod ways;

use compare::Stream;

const STREAM: Stream = Stream::EditionTwo;
/// The streams over images with two grids, whose parts are as long and stand in the same order.
const LAID_OUT_ALIKE: [Stream; 3] = [Stream::EditionTwo, Stream::KindTwo, Stream::KindThree];
