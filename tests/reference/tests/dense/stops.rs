//! The stop distance, 3 nd with a dense grid and 1 nd without, and ways out that jump across the
//! dense border.

use crate::answers::{answer, convert};
use crate::common::{fix_at, grid_g, G_GEOMETRY, SOUTH, WEST};
use crate::images::{as_kind_0, image_of, small_image, Geometries, GEOMETRIES};
use reference::{open_image, way_out, Geometry, Number};

/// Spacings 1 and two columns, the coarse latitude correction at row r the r-th one; the dense
/// grid is on the rows from one to another, with corrections of its own.
fn table(coarse: &[i32], dense: &[i32], first_dense: i64) -> Vec<u8> {
    let of_rows = |rows: usize, first: i64| Geometry {
        south: SOUTH + first,
        latitude_spacing: 1,
        longitude_spacing: 1,
        rows: rows as u32,
        columns: 2,
        ..G_GEOMETRY
    };
    let heights = Geometry {
        west: WEST,
        ..GEOMETRIES.heights
    };
    let geometries = Geometries {
        coarse: of_rows(coarse.len(), 0),
        heights,
        dense: of_rows(dense.len(), first_dense),
    };
    geometries.image(
        |row, _| [coarse[row as usize], 0],
        |row, _| [dense[row as usize], 0],
    )
}

/// The way out from a row of such a table: the row and count, or the number.
fn out_from(image: &[u8], row: i64) -> Result<(i128, i128), Number> {
    let answer = convert(way_out, image, fix_at(row, 0, 0))?;
    Ok((answer.point.latitude - i128::from(SOUTH), answer.count))
}

#[test]
fn a_step_of_3_stops_and_one_of_4_does_not() {
    for sign in [-1, 1] {
        let stopped = |step: i32| {
            let corrections = [sign * step; 40];
            let image = table(&corrections, &[0, 0], 38);
            out_from(&image, 19)
        };
        let settled = |step: i32| 19 - i128::from(sign * step);
        assert_eq!(stopped(1), Ok((settled(1), 1)));
        assert_eq!(stopped(3), Ok((settled(3), 1)));
        assert_eq!(stopped(4), Ok((settled(4), 2)));
    }
}

#[test]
fn the_stop_distance_is_3_with_a_dense_grid_alone() {
    let distance = |image: &[u8]| open_image(image).unwrap().stop_distance();
    assert_eq!(distance(&small_image()), 3);
    assert_eq!(distance(&as_kind_0(small_image())), 1);
    assert_eq!(distance(&grid_g()), 1);
}

/// The same image as kind 0 stops at a step of 1 alone.
#[test]
fn without_a_dense_grid_a_step_of_2_does_not_stop() {
    let stopped = |step: i32| {
        let image = as_kind_0(table(&[step; 40], &[0, 0], 38));
        out_from(&image, 19)
    };
    assert_eq!(stopped(1), Ok((18, 1)));
    assert_eq!(stopped(2), Ok((17, 2)));
    assert_eq!(stopped(3), Ok((16, 2)));
}

#[test]
fn the_stop_distance_holds_for_each_angle() {
    let counted = |latitude: i32, longitude: i32| {
        let image = image_of(|_, _| [latitude, longitude], |_, _| [latitude, longitude]);
        let fix = fix_at(1_500, 1_500, 0);
        convert(way_out, &image, fix).unwrap().count
    };
    assert_eq!(counted(3, -3), 1);
    assert_eq!(counted(3, 4), 2);
    assert_eq!(counted(-4, 3), 2);
}

/// 30 rows, of which 10 to 19 are dense, on which each way goes through these rows in turn.
fn table_of_ways(ways: &[&[i64]]) -> Vec<u8> {
    let (mut coarse, mut dense) = ([0; 30], [0; 10]);
    for way in ways {
        for step in way.windows(2) {
            let correction = (way[0] - step[1]) as i32;
            match step[0] {
                row @ 10..20 => dense[row as usize - 10] = correction,
                row => coarse[row as usize] = correction,
            }
        }
    }
    table(&coarse, &dense, 10)
}

/// The last step of each is one of 3 across the border.
#[test]
fn ways_jump_across_the_border_at_every_count() {
    let ways: [&[i64]; 6] = [
        &[21, 18],
        &[8, 11],
        &[15, 22, 19],
        &[14, 5, 12, 9],
        &[13, 24, 4, 20, 17],
        &[16, 26, 3, 27, 9, 12],
    ];
    let image = table_of_ways(&ways);
    for way in ways {
        let count = way.len() - 1;
        let settled = (way[count].into(), count as i128);
        assert_eq!(out_from(&image, way[0]), Ok(settled));
    }
}

#[test]
fn a_way_that_goes_to_and_fro_across_the_border_gives_11() {
    let image = table_of_ways(&[&[16, 22, 12, 22]]);
    assert_eq!(out_from(&image, 16), Err(11));
}

/// The bounds of question 10 are the coarse ones: a point off the dense grid is not refused.
#[test]
fn question_10_takes_the_coarse_grid() {
    let image = image_of(|_, _| [0, 0], |_, _| [1_500, 0]);
    let out = |latitude| convert(way_out, &image, fix_at(latitude, 1_500, 430_017));
    // From 1500 to 0, on the coarse bound, and to 1500 again, without an end.
    assert_eq!(out(1_500), Err(11));
    assert_eq!(out(1_499), Err(10));
    // Beside the dense grid, where the corrections are 0.
    assert_eq!(out(2_001), answer(2_001, 1_500, 0, 1));
}
