//! The same for the files of both formats: exact halves, zeros, subnormals, floats at and one bit
//! beside every limit, each cause of a refusal by itself, at the last node alone, two refusals at
//! once, and what is not read.

mod floats;
mod headers;
mod ntv2;
mod refusals;
mod subgrids;

use crate::made_up::calls;
use compare::{Call, File, FileAxis, Float, Format, Stream};
use reference::{nearest, DOUBLE};

fn files(format: Format) -> impl Iterator<Item = File> {
    calls(Stream::Files(format)).map(|call| match call {
        Call::ConvertFile(file) => file,
        other => panic!("{other}"),
    })
}

/// The files that are converted.
fn fit_files(format: Format) -> impl Iterator<Item = File> {
    files(format).filter(|file| file.converted().is_ok())
}

/// The axes of those that are long enough.
fn axes(format: Format) -> impl Iterator<Item = FileAxis> {
    files(format).flat_map(|file| axes_of(&file))
}

/// The axes of all grids that a file has.
fn axes_of(file: &File) -> Vec<FileAxis> {
    let grids = file.grids().unwrap_or_default();
    grids.into_iter().flat_map(|it| it.axes).collect()
}

/// The values of all its grids.
fn values_of(file: &File) -> Vec<Float> {
    let grids = file.grids().unwrap_or_default();
    let values = grids.iter().flat_map(|it| file.values_of(it));
    values.collect()
}

/// Bounds and spacings of the files that are converted.
fn fit_angles(format: Format) -> impl Iterator<Item = Float> {
    let axes = fit_files(format).flat_map(|file| axes_of(&file));
    axes.flat_map(|axis| axis.floats().collect::<Vec<Float>>())
}

/// The nd that a bound or a spacing becomes, if it is not very far from zero.
fn nd(format: Format, float: Float) -> Option<i128> {
    let nd = nearest(DOUBLE, float.bits, format.layout().angle_scale);
    nd.filter(|it| it.abs() < 1 << 40)
}
