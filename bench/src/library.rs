//! The built library libmarker.a, through its C interface.

use crate::{FileRoom, Way};

// Safety of the calls: each pointer comes from a slice that lives through the call, with that
// slice's own length, and only what was lent as changeable is written.

pub fn list(way: Way, image: &[u8], fixes: &[i64], answers: &mut [i64]) -> i64 {
    unsafe { binding::list(way, image, fixes, answers) }
}

pub fn grid_check(image: &[u8], findings: &mut [i64; 6]) -> i64 {
    unsafe { binding::marker_grid_check(image.as_ptr(), image.len(), findings.as_mut_ptr()) }
}

pub fn planes_from_nodes(image: &[u8], buffer: &mut [u8]) -> i64 {
    convert(binding::marker_planes_from_nodes, image, buffer)
}

pub fn nodes_from_planes(image: &[u8], buffer: &mut [u8]) -> i64 {
    convert(binding::marker_nodes_from_planes, image, buffer)
}

/// A converter of the library.
type Converter = unsafe extern "C" fn(*const u8, usize, *mut u8, usize) -> i64;

fn convert(call: Converter, image: &[u8], buffer: &mut [u8]) -> i64 {
    unsafe {
        call(
            image.as_ptr(),
            image.len(),
            buffer.as_mut_ptr(),
            buffer.len(),
        )
    }
}

pub fn heights_from_vdatum(file: &[u8], room: FileRoom) -> i64 {
    unsafe {
        binding::marker_heights_from_vdatum(
            file.as_ptr(),
            file.len(),
            room.nodes.as_mut_ptr(),
            room.nodes.len(),
            room.geometry.as_mut_ptr(),
        )
    }
}

pub fn corrections_from_ntv2(file: &[u8], room: FileRoom) -> i64 {
    unsafe {
        binding::marker_corrections_from_ntv2(
            file.as_ptr(),
            file.len(),
            room.nodes.as_mut_ptr(),
            room.nodes.len(),
            room.dense.as_mut_ptr(),
            room.dense.len(),
            room.geometry.as_mut_ptr(),
        )
    }
}
