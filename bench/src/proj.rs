//! PROJ through its C interface: a pipeline of vgridshift and hgridshift over files of the grid.

use bench::Way;
use std::ffi::{c_char, c_int, c_void, CStr, CString};
use std::path::Path;
use std::ptr;

/// A position as PROJ takes it: longitude and latitude in degrees, height in metres, and a time
/// that is not used.
pub type Position = [f64; 4];

#[repr(C)]
struct Info {
    major: c_int,
    minor: c_int,
    patch: c_int,
    release: *const c_char,
    version: *const c_char,
    search_path: *const c_char,
    paths: *const *const c_char,
    path_count: usize,
}

#[link(name = "proj")]
extern "C" {
    fn proj_info() -> Info;
    fn proj_create(context: *mut c_void, definition: *const c_char) -> *mut c_void;
    fn proj_destroy(pipeline: *mut c_void) -> *mut c_void;
    fn proj_trans_array(
        pipeline: *mut c_void,
        direction: c_int,
        count: usize,
        positions: *mut Position,
    ) -> c_int;
}

const FORWARD: c_int = 1;
const INVERSE: c_int = -1;

/// A pipeline whose forward direction is the way back.
pub struct Pipeline(*mut c_void);

impl Pipeline {
    /// The pipeline over the two files of a grid.
    pub fn open(gsb: &Path, gtx: &Path) -> Pipeline {
        let definition = format!(
            "+proj=pipeline +step +proj=unitconvert +xy_in=deg +xy_out=rad \
             +step +proj=vgridshift +grids={} +multiplier=1 \
             +step +proj=hgridshift +grids={} \
             +step +proj=unitconvert +xy_in=rad +xy_out=deg",
            gtx.display(),
            gsb.display()
        );
        let definition = CString::new(definition).expect("no zero byte");
        let pipeline = unsafe { proj_create(ptr::null_mut(), definition.as_ptr()) };
        assert!(
            !pipeline.is_null(),
            "PROJ refuses the pipeline {definition:?}"
        );
        Pipeline(pipeline)
    }

    /// Converts all positions in place.
    pub fn convert(&self, way: Way, positions: &mut [Position]) {
        let direction = match way {
            Way::Out => INVERSE,
            Way::Back => FORWARD,
        };
        let (first, count) = (positions.as_mut_ptr(), positions.len());
        let error = unsafe { proj_trans_array(self.0, direction, count, first) };
        assert_eq!(error, 0, "PROJ refuses a position");
    }
}

impl Drop for Pipeline {
    fn drop(&mut self) {
        unsafe { proj_destroy(self.0) };
    }
}

/// A list's fixes as positions.
pub fn positions(fixes: &[i64]) -> Vec<Position> {
    let position = |fix: &[i64]| {
        [
            fix[1] as f64 / 1e9,
            fix[0] as f64 / 1e9,
            fix[2] as f64 / 1e4,
            0.0,
        ]
    };
    fixes.chunks_exact(3).map(position).collect()
}

/// A position's latitude and longitude in nd and its height in units of 0.0001 m, not rounded.
pub fn in_units(position: &Position) -> [f64; 3] {
    [position[1] * 1e9, position[0] * 1e9, position[2] * 1e4]
}

/// PROJ's release.
pub fn release() -> String {
    let release = unsafe { CStr::from_ptr(proj_info().release) };
    release.to_string_lossy().into_owned()
}
