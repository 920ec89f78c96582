//! A small file and its changes.

use reference::{heights_from_vdatum, Converted, FileHeader, Number};

/// Three rows and two columns from 52 degrees north and 5 degrees east, 1/64 degree apart.
pub fn header() -> FileHeader {
    FileHeader {
        south: 52_f64.to_bits(),
        west: 5_f64.to_bits(),
        latitude_spacing: 0x3F90_0000_0000_0000,
        longitude_spacing: 0x3F90_0000_0000_0000,
        rows: 3,
        columns: 2,
    }
}

/// The bits of 43 metres.
pub const SOME_HEIGHT: u32 = 0x422C_0000;

/// A file of a header and nodes.
pub fn file_of(header: &FileHeader, nodes: &[u32]) -> Vec<u8> {
    let mut file = header.write();
    file.extend(nodes.iter().flat_map(|bits| bits.to_be_bytes()));
    file
}

/// What comes of a file if the buffer has room for its nodes.
pub fn converted(file: &[u8]) -> Result<Converted, Number> {
    heights_from_vdatum(file, file.len().saturating_sub(40))
}

/// What comes of a header with as many nodes as its counts say, at most three million.
pub fn converted_header(header: &FileHeader) -> Result<Converted, Number> {
    let nodes = i64::from(header.rows) * i64::from(header.columns);
    let nodes = vec![SOME_HEIGHT; nodes.clamp(0, 3_000_000) as usize];
    converted(&file_of(header, &nodes))
}

/// What comes of the small file with the given nodes.
pub fn converted_nodes(nodes: [u32; 6]) -> Result<Vec<i32>, Number> {
    let heights = converted(&file_of(&header(), &nodes))?;
    let nodes = heights.nodes.chunks_exact(4);
    Ok(nodes
        .map(|node| i32::from_le_bytes(node.try_into().expect("four bytes")))
        .collect())
}
