//! An image of kind 0 and the same one of kind 3, each spelled in bytes.

use reference::{nodes_from_planes, open_image, planes_from_nodes, Image};

/// Correction nodes at 2 rows and 3 columns: the latitude corrections' first bytes are 11 to 16, the
/// longitude corrections' 41 to 46.
#[rustfmt::skip]
const IN_NODES: [u8; 48] = [
    0x11, 0x21, 0x31, 0x00, 0x41, 0x51, 0xFE, 0xFF,
    0x12, 0x22, 0x32, 0x00, 0x42, 0x52, 0xFE, 0xFF,
    0x13, 0x23, 0x33, 0x00, 0x43, 0x53, 0xFE, 0xFF,
    0x14, 0x24, 0x34, 0x00, 0x44, 0x54, 0xFE, 0xFF,
    0x15, 0x25, 0x35, 0x00, 0x45, 0x55, 0xFE, 0xFF,
    0x16, 0x26, 0x36, 0x00, 0x46, 0x56, 0xFE, 0xFF,
];

/// The same in planes.
#[rustfmt::skip]
const IN_PLANES: [u8; 48] = [
    0x11, 0x21, 0x31, 0x00, 0x12, 0x22, 0x32, 0x00, 0x13, 0x23, 0x33, 0x00,
    0x14, 0x24, 0x34, 0x00, 0x15, 0x25, 0x35, 0x00, 0x16, 0x26, 0x36, 0x00,
    0x41, 0x51, 0xFE, 0xFF, 0x42, 0x52, 0xFE, 0xFF, 0x43, 0x53, 0xFE, 0xFF,
    0x44, 0x54, 0xFE, 0xFF, 0x45, 0x55, 0xFE, 0xFF, 0x46, 0x56, 0xFE, 0xFF,
];

/// Heights at 2 rows and columns, both geometries, and the backs 144 and 96.
#[rustfmt::skip]
const BEFORE_THE_KIND: [u8; 88] = [
    0x61, 0x71, 0x01, 0x00, 0x62, 0x72, 0x02, 0x00,
    0x63, 0x73, 0x03, 0x00, 0x64, 0x74, 0x04, 0x00,
    // South 1, west −2, spacings 10 and 20, 2 rows, 3 columns.
    0x01, 0, 0, 0, 0, 0, 0, 0, 0xFE, 0xFF, 0xFF, 0xFF, 0xFF, 0xFF, 0xFF, 0xFF,
    0x0A, 0, 0, 0, 0x14, 0, 0, 0, 0x02, 0, 0, 0, 0x03, 0, 0, 0,
    // South 0, west −5, spacings 30 and 40, 2 rows, 2 columns.
    0, 0, 0, 0, 0, 0, 0, 0, 0xFB, 0xFF, 0xFF, 0xFF, 0xFF, 0xFF, 0xFF, 0xFF,
    0x1E, 0, 0, 0, 0x28, 0, 0, 0, 0x02, 0, 0, 0, 0x02, 0, 0, 0,
    0x90, 0, 0, 0, 0x60, 0, 0, 0,
];

const KIND_0_EDITION_2: [u8; 8] = [0, 0, 0, 0, 0x02, 0, 0, 0];
const KIND_3_EDITION_2: [u8; 8] = [0x03, 0, 0, 0, 0x02, 0, 0, 0];

const LENGTH: usize = 144;

fn kind_0() -> Vec<u8> {
    [&IN_NODES[..], &BEFORE_THE_KIND, &KIND_0_EDITION_2].concat()
}

fn kind_3() -> Vec<u8> {
    [&IN_PLANES[..], &BEFORE_THE_KIND, &KIND_3_EDITION_2].concat()
}

#[test]
fn kind_3_from_kind_0() {
    assert_eq!(planes_from_nodes(&kind_0(), LENGTH), Ok(kind_3()));
}

#[test]
fn kind_0_from_kind_3() {
    assert_eq!(nodes_from_planes(&kind_3(), LENGTH), Ok(kind_0()));
}

#[test]
fn bytes_before_the_first_node_are_left_out() {
    for more in [1, 4, 8, 37] {
        let before = vec![0x99; more];
        let image = [before.clone(), kind_0()].concat();
        assert_eq!(planes_from_nodes(&image, LENGTH), Ok(kind_3()));
        let image = [before, kind_3()].concat();
        assert_eq!(nodes_from_planes(&image, LENGTH), Ok(kind_0()));
    }
}

#[test]
fn both_have_the_same_values() {
    for image in [kind_0(), kind_3()] {
        let Ok(Image::TwoGrids {
            corrections,
            heights,
            dense: None,
            unbounded: false,
        }) = open_image(&image)
        else {
            panic!("two grids with bounds");
        };
        assert_eq!(corrections.node(0, 0), [0x31_2111, 0x5141 - 0x2_0000]);
        assert_eq!(corrections.node(0, 2), [0x33_2313, 0x5343 - 0x2_0000]);
        assert_eq!(corrections.node(1, 0), [0x34_2414, 0x5444 - 0x2_0000]);
        assert_eq!(corrections.node(1, 2), [0x36_2616, 0x5646 - 0x2_0000]);
        let wanted = [0x1_7161, 0x2_7262, 0x3_7363, 0x4_7464];
        assert_eq!(heights.all_nodes().concat(), wanted);
    }
}

/// No value is asked: all of them may be unfit.
#[test]
fn unfit_values_are_converted_too() {
    let filled = |image: Vec<u8>| [vec![0x80; 64], image[64..].to_vec()].concat();
    let (nodes, planes) = (filled(kind_0()), filled(kind_3()));
    assert_eq!(planes_from_nodes(&nodes, LENGTH), Ok(planes.clone()));
    assert_eq!(nodes_from_planes(&planes, LENGTH), Ok(nodes));
}
