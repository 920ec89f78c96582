//! The built library libmarker.a as a converter, through its C interface.

use crate::{Converter, FileRoom, Format, Way};
use binding::{
    marker_corrections_from_ntv2, marker_grid_check, marker_heights_from_vdatum,
    marker_nodes_from_planes, marker_planes_from_nodes, marker_read_notation,
    marker_write_notation,
};
use reference::{Arrangement, Axis, Notation, Number};

/// The linked library.
///
/// Safety of its calls: each pointer comes from a slice or reference that lives through the call,
/// with that slice's own length, and from a changeable one, so that even a wrong write inside it
/// is a write that Rust allows.
pub struct Library;

impl Converter for Library {
    fn grid_check(&self, image: &mut [u8], findings: &mut [i64; 6]) -> Number {
        unsafe { marker_grid_check(image.as_mut_ptr(), image.len(), findings.as_mut_ptr()) }
    }

    fn list(&self, way: Way, image: &mut [u8], fixes: &mut [i64], answers: &mut [i64]) -> Number {
        unsafe { binding::list(way, image as *mut [u8], fixes as *mut [i64], answers) }
    }

    fn read_notation(&self, axis: Axis, notation: Notation, nd: &mut i64) -> Number {
        unsafe {
            marker_read_notation(
                axis == Axis::Longitude,
                notation.degrees,
                notation.minutes,
                notation.hundred_thousandths,
                notation.letter,
                nd,
            )
        }
    }

    fn write_notation(&self, axis: Axis, nd: i64, notation: &mut [u64; 4]) -> Number {
        unsafe { marker_write_notation(axis == Axis::Longitude, nd, notation.as_mut_ptr()) }
    }

    fn convert_file(&self, format: Format, file: &mut [u8], room: FileRoom) -> Number {
        let (bytes, length) = (file.as_mut_ptr(), file.len());
        let (nodes, nodes_length) = (room.nodes.as_mut_ptr(), room.nodes.len());
        let geometry = room.geometry.as_mut_ptr();
        match format {
            Format::Vdatum => unsafe {
                marker_heights_from_vdatum(bytes, length, nodes, nodes_length, geometry)
            },
            Format::Ntv2 => unsafe {
                marker_corrections_from_ntv2(
                    bytes,
                    length,
                    nodes,
                    nodes_length,
                    room.dense.as_mut_ptr(),
                    room.dense.len(),
                    geometry,
                )
            },
        }
    }

    fn arrange(&self, arrangement: Arrangement, image: &mut [u8], buffer: &mut [u8]) -> Number {
        let call = match arrangement {
            Arrangement::Nodes => marker_nodes_from_planes,
            Arrangement::Planes => marker_planes_from_nodes,
        };
        let (bytes, room) = (image.as_mut_ptr(), buffer.as_mut_ptr());
        unsafe { call(bytes, image.len(), room, buffer.len()) }
    }
}
