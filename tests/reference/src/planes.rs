//! The conversions between the two arrangements of an edition 2 image's corrections: document 02's
//! note 8.

use crate::image::{write_planes, write_two_grids};
use crate::{ask, open_image, Arrangement, Image, Number, TwoGridTrailer};

impl Arrangement {
    /// The kind of the images that are converted into each other, and have their corrections so.
    pub fn kind(self) -> u32 {
        match self {
            Arrangement::Nodes => 0,
            Arrangement::Planes => 3,
        }
    }

    /// The one that it is made from.
    pub fn other(self) -> Arrangement {
        match self {
            Arrangement::Nodes => Arrangement::Planes,
            Arrangement::Planes => Arrangement::Nodes,
        }
    }
}

/// "A converter turns a kind 0 image of edition 2 into kind 3", for a lent buffer of so many bytes.
pub fn planes_from_nodes(image: &[u8], buffer_length: usize) -> Result<Vec<u8>, Number> {
    arrange(Arrangement::Planes, image, buffer_length)
}

/// "and back".
pub fn nodes_from_planes(image: &[u8], buffer_length: usize) -> Result<Vec<u8>, Number> {
    arrange(Arrangement::Nodes, image, buffer_length)
}

/// An image of the other kind as one whose corrections are arranged so, from its first node on.
pub fn arrange(
    arrangement: Arrangement,
    image: &[u8],
    buffer_length: usize,
) -> Result<Vec<u8>, Number> {
    // "The image's number, then 2 for another kind or edition",
    let opened = open_image(image)?;
    let Image::TwoGrids {
        corrections,
        heights,
        ..
    } = opened
    else {
        return Err(2);
    };
    let trailer = TwoGridTrailer::read(image).expect("an image of edition 2");
    ask(trailer.kind == arrangement.other().kind(), 2)?;
    // "last 14 for a buffer whose length is not that from the first node to the image's end."
    ask(buffer_length == corrections.values.len(), 14)?;
    let write = match arrangement {
        Arrangement::Nodes => write_two_grids,
        Arrangement::Planes => write_planes,
    };
    let trailer = TwoGridTrailer {
        kind: arrangement.kind(),
        ..trailer
    };
    Ok(write(
        &corrections.all_nodes(),
        &heights.all_nodes(),
        &trailer,
    ))
}
