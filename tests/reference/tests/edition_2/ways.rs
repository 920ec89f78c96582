//! Questions 7 to 11 and 15 for edition 2, in their order.

use crate::answers::convert;
use crate::common::{fix_at, point_at, G_GEOMETRY, SOUTH};
use crate::images::{
    g_corrections, image_of, image_over, sloping_heights, small_image, HEIGHTS_ELSEWHERE,
    HEIGHT_GEOMETRY,
};
use reference::{open_image, way_back, way_out, Geometry, Number};

const UNFIT_CORRECTION: i32 = 10_000_001;
const UNFIT_HEIGHT: i32 = -1_000_001;

/// The number that a fix at the offsets, with height 0, gets going back.
fn back(image: &[u8], latitude: i64, longitude: i64) -> Option<Number> {
    convert(way_back, image, fix_at(latitude, longitude, 0)).err()
}

/// The same going out.
fn out(image: &[u8], latitude: i64, longitude: i64) -> Option<Number> {
    convert(way_out, image, fix_at(latitude, longitude, 0)).err()
}

#[test]
fn question_7_precedes_question_8_and_that_the_height_grid() {
    let image = small_image();
    let beyond = fix_at(90_000_000_000, 0, 0);
    assert_eq!(convert(way_back, &image, beyond), Err(7));
    let high = fix_at(2_001, 99, 110_000_001);
    assert_eq!(convert(way_back, &image, high), Err(7));
    assert_eq!(back(&image, 2_001, 99), Some(8));
    // On the height grid, which begins further south, but off the correction grid.
    assert_eq!(back(&image, -1, 500), Some(8));
    assert_eq!(out(&image, -1, 500), Some(8));
}

/// Where the corrections are fit they are 0, so that going out p0 is the Bessel point too.
#[test]
fn question_9_for_corrections_precedes_15_and_that_question_9_for_heights() {
    let image = |correction, height| image_of(move |_, _| [correction, 0], move |_, _| [height]);
    for way in [back, out] {
        let unfit = image(UNFIT_CORRECTION, UNFIT_HEIGHT);
        assert_eq!(way(&unfit, 500, 99), Some(9));
        let unfit_heights = image(0, UNFIT_HEIGHT);
        assert_eq!(way(&unfit_heights, 500, 99), Some(15));
        assert_eq!(way(&unfit_heights, 500, 100), Some(9));
        assert_eq!(way(&image(0, 0), 500, 100), None);
    }
}

/// Latitude corrections 0, 1000, 2000 by row: G's figure of an 11.
#[test]
fn out_11_and_10_precede_15() {
    let geometries = [G_GEOMETRY, HEIGHTS_ELSEWHERE];
    let steep = image_over(geometries, |row, _| [1_000 * row, 0], sloping_heights);
    assert_eq!(out(&steep, 1_500, 500), Some(11));
    assert_eq!(out(&steep, 0, 500), Some(15));
    let g_elsewhere = image_over(geometries, g_corrections, sloping_heights);
    assert_eq!(out(&g_elsewhere, 50, 500), Some(10));
    assert_eq!(out(&g_elsewhere, 602, 450), Some(15));
}

/// Whether the south-west corner of both grids passes question 9 with one value put into one
/// node of its cell: the corrections, and the height.
fn corner_fits(corner: i32, value: usize, stands_there: i32) -> (bool, bool) {
    let here = |row, column| (row, column) == (corner / 2, corner % 2);
    let geometries = [G_GEOMETRY; 2];
    let bytes = image_over(
        geometries,
        |row, column| {
            let mut node = [0; 2];
            if here(row, column) && value < 2 {
                node[value] = stands_there;
            }
            node
        },
        |row, column| {
            [if here(row, column) && value == 2 {
                stands_there
            } else {
                0
            }]
        },
    );
    let image = open_image(&bytes).unwrap();
    let point = point_at(0, 0);
    let fits = |number: Option<Number>| {
        assert!(number.is_none() || number == Some(9));
        number.is_none()
    };
    (
        fits(image.corrections(point).err()),
        fits(image.height(point).err()),
    )
}

#[test]
fn question_9_asks_correction_cells_for_corrections_and_height_cells_for_heights() {
    for corner in 0..4 {
        for (value, limit) in [10_000_000, 10_000_000, 1_000_000].into_iter().enumerate() {
            let past_the_limit = if value < 2 {
                (false, true)
            } else {
                (true, false)
            };
            for sign in [-1, 1] {
                let fits = |size: i32| corner_fits(corner, value, sign * size);
                assert_eq!(fits(limit), (true, true));
                assert_eq!(fits(limit + 1), past_the_limit);
            }
        }
    }
}

/// Spacings 1 and two columns, the latitude correction at row r the r-th one; heights on a grid
/// around it with spacings 20, of which some nodes are unfit.
fn grid_by_row(corrections: &[i32], heights: [i32; 4]) -> Vec<u8> {
    let of_corrections = Geometry {
        latitude_spacing: 1,
        longitude_spacing: 1,
        rows: corrections.len() as u32,
        columns: 2,
        ..G_GEOMETRY
    };
    let of_heights = Geometry {
        south: SOUTH - 16,
        latitude_spacing: 20,
        longitude_spacing: 20,
        rows: 4,
        columns: 2,
        ..G_GEOMETRY
    };
    image_over(
        [of_corrections, of_heights],
        |row, _| [corrections[row as usize], 0],
        |row, _| [heights[row as usize]],
    )
}

/// The way out from row 5 of such a grid: the row and count, or the number.
fn out_from_row_5(image: &[u8]) -> Result<(i128, i128), Number> {
    let answer = convert(way_out, image, fix_at(5, 0, 0))?;
    Ok((answer.point.latitude - i128::from(SOUTH), answer.count))
}

/// In edition 1 this is a 9: there the cell of pn is asked for all its values.
#[test]
fn the_correction_cell_of_pn_is_not_asked() {
    // The rows of p0 to p5: 5, 8, 10, 7, 3, 2.
    let mut corrections = [0, 0, 0, 3, 0, -3, 0, 2, -5, 0, -2, 0];
    assert_eq!(
        out_from_row_5(&grid_by_row(&corrections, [0; 4])),
        Ok((2, 5))
    );
    corrections[2] = UNFIT_CORRECTION;
    assert_eq!(
        out_from_row_5(&grid_by_row(&corrections, [0; 4])),
        Ok((2, 5))
    );
    corrections[3] = UNFIT_CORRECTION;
    assert_eq!(out_from_row_5(&grid_by_row(&corrections, [0; 4])), Err(9));
}

/// p0 lies in the second row of height cells, pn, row 2, in the first one.
#[test]
fn only_the_height_cell_of_pn_is_asked() {
    let corrections = [0, 0, 0, 3, 0, -3, 0, 2, -5, 0, -2, 0];
    let out = |heights| out_from_row_5(&grid_by_row(&corrections, heights));
    assert_eq!(out([0, 0, UNFIT_HEIGHT, 0]), Ok((2, 5)));
    assert_eq!(out([0, UNFIT_HEIGHT, 0, 0]), Err(9));
    assert_eq!(out([UNFIT_HEIGHT, 0, 0, 0]), Err(9));
}

#[test]
fn no_height_is_asked_where_the_way_does_not_stop() {
    // The rows of p0 to p5: 5, 2, 8, 4, 11, 0.
    let corrections = [0, 0, -3, 0, -6, 3, 0, 0, 1, 0, 0, 5];
    let image = grid_by_row(&corrections, [UNFIT_HEIGHT; 4]);
    assert_eq!(out_from_row_5(&image), Err(11));
}

#[test]
fn a_point_on_the_height_grids_far_bounds_uses_its_last_cell() {
    let last_node_unfit = image_of(g_corrections, |row, column| {
        [if (row, column) == (3, 2) {
            UNFIT_HEIGHT
        } else {
            0
        }]
    });
    let (north, east) = (HEIGHT_GEOMETRY.north(), HEIGHT_GEOMETRY.east());
    let (latitude, longitude) = (north as i64 - SOUTH, east as i64 - G_GEOMETRY.west);
    assert_eq!(back(&last_node_unfit, latitude, longitude), Some(9));
    assert_eq!(back(&last_node_unfit, latitude - 700, longitude), Some(9));
    assert_eq!(back(&last_node_unfit, latitude - 701, longitude), None);
    assert_eq!(back(&last_node_unfit, latitude, longitude - 901), None);
}
