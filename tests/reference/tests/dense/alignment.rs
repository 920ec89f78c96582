//! Question 20 at each of its limits: a dense grid whose bounds lie on coarse lines within the
//! coarse ones, and whose spacings divide the coarse ones.

use crate::common::{SOUTH, WEST};
use crate::images::{Geometries, COARSE, DENSE, GEOMETRIES};
use reference::{open_image, Geometry, Number};

/// The number of the small image with another dense grid.
fn number_of(dense: Geometry) -> Option<Number> {
    let geometries = Geometries {
        dense,
        ..GEOMETRIES
    };
    let image = geometries.image(|_, _| [0, 0], |_, _| [0, 0]);
    open_image(&image).err()
}

/// The dense grid from these offsets on, with these spacings, rows and columns.
fn dense(corner: [i64; 2], spacings: [u32; 2], lines: [u32; 2]) -> Geometry {
    Geometry {
        south: SOUTH + corner[0],
        west: WEST + corner[1],
        latitude_spacing: spacings[0],
        longitude_spacing: spacings[1],
        rows: lines[0],
        columns: lines[1],
    }
}

/// The same along both axes, each beside the small image's own other axis.
fn number_along_each(offset: i64, spacing: u32, lines: u32) -> Option<Number> {
    let [in_latitude, in_longitude] = [
        dense([offset, 1_000], [spacing, 500], [lines, 3]),
        dense([1_000, offset], [250, spacing], [5, lines]),
    ]
    .map(number_of);
    assert_eq!(in_latitude, in_longitude);
    in_latitude
}

#[test]
fn grids_that_lie_aligned_open() {
    assert_eq!(number_of(DENSE), None);
    // The whole coarse grid, with its own spacings and with others.
    assert_eq!(number_of(COARSE), None);
    assert_eq!(number_of(dense([0, 0], [1, 1_000], [3_001, 4])), None);
    assert_eq!(number_of(dense([0, 0], [40, 8], [76, 376])), None);
    // One coarse cell in each corner, and one cell with the coarse spacings.
    for south in [0, 2_000] {
        for west in [0, 2_000] {
            assert_eq!(number_of(dense([south, west], [500, 200], [3, 6])), None);
            assert_eq!(number_of(dense([south, west], [1_000; 2], [2, 2])), None);
        }
    }
}

#[test]
fn a_bound_off_the_coarse_lines_is_a_20() {
    assert_eq!(number_along_each(1_000, 250, 5), None);
    // Both bounds 1 nd, and one dense spacing, further.
    for offset in [999, 1_001, 750, 1_250, 1_500] {
        assert_eq!(number_along_each(offset, 250, 5), Some(20));
    }
    // The far bound alone: one dense spacing less and more.
    assert_eq!(number_along_each(1_000, 250, 4), Some(20));
    assert_eq!(number_along_each(1_000, 250, 6), Some(20));
    // The near bound alone.
    assert_eq!(number_along_each(1_250, 250, 4), Some(20));
    assert_eq!(number_along_each(750, 250, 6), Some(20));
}

/// Its lines run on where coarse lines would.
#[test]
fn a_bound_past_the_coarse_one_is_a_20() {
    assert_eq!(number_along_each(0, 250, 13), None);
    assert_eq!(number_along_each(0, 250, 17), Some(20));
    assert_eq!(number_along_each(-1_000, 250, 17), Some(20));
    assert_eq!(number_along_each(-1_000, 250, 13), Some(20));
    assert_eq!(number_along_each(-1_000, 250, 5), Some(20));
    assert_eq!(number_along_each(2_000, 250, 5), None);
    assert_eq!(number_along_each(2_000, 250, 9), Some(20));
    // Beside the coarse grid, touching it and not.
    assert_eq!(number_along_each(3_000, 250, 5), Some(20));
    assert_eq!(number_along_each(4_000, 250, 5), Some(20));
    assert_eq!(number_along_each(-2_000, 250, 5), Some(20));
}

/// The bounds lie on coarse lines in each of these.
#[test]
fn a_coarse_spacing_that_is_no_multiple_of_the_dense_one_is_a_20() {
    assert_eq!(number_along_each(0, 400, 6), Some(20));
    assert_eq!(number_along_each(0, 2_000, 2), Some(20));
    assert_eq!(number_along_each(0, 3_000, 2), Some(20));
    assert_eq!(number_along_each(0, 1_500, 3), Some(20));
    assert_eq!(number_along_each(0, 1_000, 3), None);
    assert_eq!(number_along_each(0, 500, 5), None);
    assert_eq!(number_along_each(0, 8, 251), None);
    assert_eq!(number_along_each(0, 16, 126), Some(20));
    assert_eq!(number_along_each(1_000, 1, 1_001), None);
}

#[test]
fn alignment_is_by_the_coarse_corner_and_not_by_zero() {
    let moved = |geometry: Geometry, by: i64| Geometry {
        south: geometry.south - SOUTH - by,
        west: geometry.west - WEST + by,
        ..geometry
    };
    for by in [0, 1, 123, 1_999, 2_000] {
        let geometries = Geometries {
            coarse: moved(COARSE, by),
            dense: moved(DENSE, by),
            ..GEOMETRIES
        };
        let image = geometries.image(|_, _| [0, 0], |_, _| [0, 0]);
        assert_eq!(open_image(&image).err(), None);
    }
}
