//! The functions of include/marker.h, which says what each takes, gives and leaves, and one for
//! the list calls of both ways.

/// Out (ETRS89 to Bessel and NAP) or back.
#[derive(Clone, Copy, Debug, PartialEq, Eq)]
pub enum Way {
    Out,
    Back,
}

/// The list call of a way: its number.
///
/// # Safety
/// Image and fixes may be read and the answers written throughout the call.
#[inline]
pub unsafe fn list(way: Way, image: *const [u8], fixes: *const [i64], answers: *mut [i64]) -> i64 {
    let call = match way {
        Way::Out => marker_list_out,
        Way::Back => marker_list_back,
    };
    call(
        image.cast(),
        image.len(),
        fixes.cast(),
        fixes.len(),
        answers.cast(),
        answers.len(),
    )
}

/// Declares the list calls, which are alike but for their names.
macro_rules! list_calls {
    ($($name:ident),*) => {
        extern "C" {
            $(pub fn $name(
                image: *const u8,
                image_length: usize,
                fixes: *const i64,
                fixes_length: usize,
                answers: *mut i64,
                answers_length: usize,
            ) -> i64;)*
        }
    };
}

list_calls!(marker_list_out, marker_list_back);

/// Declares the conversions of images, which are alike but for their names.
macro_rules! image_conversions {
    ($($name:ident),*) => {
        extern "C" {
            $(pub fn $name(
                image: *const u8,
                image_length: usize,
                buffer: *mut u8,
                buffer_length: usize,
            ) -> i64;)*
        }
    };
}

image_conversions!(marker_planes_from_nodes, marker_nodes_from_planes);

extern "C" {
    pub fn marker_grid_check(image: *const u8, image_length: usize, findings: *mut i64) -> i64;
    pub fn marker_read_notation(
        longitude: bool,
        degrees: u64,
        minutes: u64,
        hundred_thousandths: u64,
        letter: u8,
        nd: *mut i64,
    ) -> i64;
    pub fn marker_write_notation(longitude: bool, nd: i64, notation: *mut u64) -> i64;
}

extern "C" {
    pub fn marker_heights_from_vdatum(
        file: *const u8,
        file_length: usize,
        nodes: *mut u8,
        nodes_length: usize,
        geometry: *mut i64,
    ) -> i64;
    pub fn marker_corrections_from_ntv2(
        file: *const u8,
        file_length: usize,
        nodes: *mut u8,
        nodes_length: usize,
        dense: *mut u8,
        dense_length: usize,
        geometry: *mut i64,
    ) -> i64;
}
