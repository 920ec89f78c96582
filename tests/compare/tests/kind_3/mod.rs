//! The same for kind 3: the same bytes as other kinds, conversions of every image and buffer of note,
//! and converted images over which there is something to compare.

mod buffers;
mod converted;
mod kinds;

use crate::made_up::calls;
use compare::{Arranging, Call, Stream};

const STREAM: Stream = Stream::KindThree;

/// All conversions into another arrangement.
fn arrangings() -> impl Iterator<Item = Arranging> {
    calls(STREAM).filter_map(|call| match call {
        Call::Arrange(given) => Some(given),
        _ => None,
    })
}
