//! NTv2 .gsb files as bytes: with one grid, and with a subgrid.

use crate::grid::Geometry;

/// Bytes before the first node, of them those of the grid's header, of a node, and after the last
/// one.
pub const HEADERS_BYTES: usize = 352;
pub const HEADER_BYTES: usize = 176;
pub const NODE_BYTES: usize = 16;
pub const END_BYTES: usize = 16;

/// Seconds of arc in an nd.
pub const SECONDS: f64 = 3.6e-6;

/// The file of a geometry, with shifts in seconds of arc by row and column: to the north, and to
/// the west. NTv2 counts longitudes to the west, and a row runs from east to west.
pub fn bytes(geometry: &Geometry, shifts: impl Fn(u32, u32) -> [f32; 2]) -> Vec<u8> {
    let length = HEADERS_BYTES + NODE_BYTES * geometry.nodes() + END_BYTES;
    let mut bytes = Vec::with_capacity(length);
    put_overview(&mut bytes);
    put_extent(&mut bytes, geometry);
    for row in 0..geometry.rows {
        for column in (0..geometry.columns).rev() {
            let [north, west] = shifts(row, column);
            for value in [north, west, 0.0, 0.0] {
                bytes.extend(value.to_le_bytes());
            }
        }
    }
    put_text(&mut bytes, "END", "");
    bytes
}

/// Where the value of NUM_FILE begins, and those of the grid's SUB_NAME, PARENT and GS_COUNT.
const NUM_FILE: usize = 40;
const SUB_NAME: usize = 184;
const PARENT: usize = 200;
const GS_COUNT: usize = 344;

/// Two files of one grid as one: the header and the nodes of the second follow those of the first,
/// and name it as their parent.
pub fn with_subgrid(mut file: Vec<u8>, mut sub: Vec<u8>) -> Vec<u8> {
    file[NUM_FILE] = 2;
    sub.copy_within(SUB_NAME..SUB_NAME + 8, PARENT);
    sub[SUB_NAME..SUB_NAME + 8].copy_from_slice(b"DENSE   ");
    file.truncate(file.len() - END_BYTES);
    file.extend(&sub[HEADERS_BYTES - HEADER_BYTES..]);
    file
}

/// The nodes of the first grid of a file that is converted, and those of its subgrid.
pub fn nodes(file: &[u8]) -> [usize; 2] {
    let count = file[GS_COUNT..GS_COUNT + 4].try_into().expect("4 bytes");
    let first = u32::from_le_bytes(count) as usize;
    let others = file.len() - HEADERS_BYTES - NODE_BYTES * first - END_BYTES;
    [first, others.saturating_sub(HEADER_BYTES) / NODE_BYTES]
}

fn put_overview(bytes: &mut Vec<u8>) {
    put_count(bytes, "NUM_OREC", 11);
    put_count(bytes, "NUM_SREC", 11);
    put_count(bytes, "NUM_FILE", 1);
    put_text(bytes, "GS_TYPE", "SECONDS");
    put_text(bytes, "VERSION", "NTv2.0");
    put_text(bytes, "SYSTEM_F", "BESSEL");
    put_text(bytes, "SYSTEM_T", "ETRS89");
    put_real(bytes, "MAJOR_F", 6_377_397.155);
    put_real(bytes, "MINOR_F", 6_356_078.963);
    put_real(bytes, "MAJOR_T", 6_378_137.0);
    put_real(bytes, "MINOR_T", 6_356_752.314);
}

fn put_extent(bytes: &mut Vec<u8>, geometry: &Geometry) {
    let north = geometry.south + geometry.height();
    let east = geometry.west + geometry.width();
    put_text(bytes, "SUB_NAME", "BENCH");
    put_text(bytes, "PARENT", "NONE");
    put_text(bytes, "CREATED", "");
    put_text(bytes, "UPDATED", "");
    for (label, nd) in [
        ("S_LAT", geometry.south),
        ("N_LAT", north),
        ("E_LONG", -east),
        ("W_LONG", -geometry.west),
        ("LAT_INC", geometry.latitude_spacing.into()),
        ("LONG_INC", geometry.longitude_spacing.into()),
    ] {
        put_real(bytes, label, nd as f64 * SECONDS);
    }
    put_count(bytes, "GS_COUNT", geometry.rows * geometry.columns);
}

fn put_text(bytes: &mut Vec<u8>, label: &str, value: &str) {
    bytes.extend(format!("{label:<8}{value:<8}").bytes());
}

fn put_real(bytes: &mut Vec<u8>, label: &str, value: f64) {
    bytes.extend(format!("{label:<8}").bytes());
    bytes.extend(value.to_le_bytes());
}

fn put_count(bytes: &mut Vec<u8>, label: &str, value: u32) {
    bytes.extend(format!("{label:<8}").bytes());
    bytes.extend(u64::from(value).to_le_bytes());
}
