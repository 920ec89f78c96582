//! Document 01's questions at their limits and in their order, and the layout of image and
//! lists, for edition 1.

mod common;
mod limits;

use common::{fix_at, g_node, grid_g, image_of, G_GEOMETRY, G_TRAILER, SOUTH, WEST};
use reference::{
    list_back, list_out, open_image, way_back, way_out, Fix, Geometry, Grid, Image, Number, Point,
    Trailer,
};

/// The nodes of an edition 1 image that opens.
fn opened(image: &[u8]) -> Grid<'_, 3> {
    match open_image(image) {
        Ok(Image::OneGrid(nodes)) => nodes,
        other => panic!("{other:?}"),
    }
}

/// The number that G gets after a change of its trailer.
fn number_after(change: impl Fn(&mut Trailer)) -> Option<Number> {
    let mut trailer = G_TRAILER;
    change(&mut trailer);
    open_image(&image_over(&trailer)).err()
}

/// G's nine nodes with any trailer behind them.
fn image_over(trailer: &Trailer) -> Vec<u8> {
    let nodes = &grid_g()[..108];
    [nodes, &trailer.write()].concat()
}

#[test]
fn trailer_layout_is_little_endian_in_the_papers_order() {
    let mut image = vec![0; 60];
    image.extend([
        1, 0, 0, 0, 0, 0, 0, 0, 254, 255, 255, 255, 255, 255, 255, 255,
    ]);
    image.extend([
        3, 0, 0, 0, 4, 0, 0, 0, 2, 0, 0, 0, 2, 0, 0, 0, 88, 0, 0, 0, 1, 0, 0, 0,
    ]);
    let first_node = image.len() - 88;
    image[first_node..first_node + 12]
        .copy_from_slice(&[5, 0, 0, 0, 255, 255, 255, 255, 7, 1, 0, 0]);
    let nodes = opened(&image);
    let geometry = nodes.geometry;
    assert_eq!((geometry.south, geometry.west), (1, -2));
    assert_eq!((geometry.north(), geometry.east()), (4, 2));
    assert_eq!(nodes.node(0, 0), [5, -1, 263]);
}

#[test]
fn question_1_the_length() {
    assert_eq!(open_image(&[]).err(), Some(1));
    assert_eq!(open_image(&grid_g()[109..]).err(), Some(1));
    assert_eq!(open_image(&grid_g()[108..]).err(), Some(6));
}

#[test]
fn question_2_the_edition_precedes_question_3() {
    let number = |edition| {
        number_after(|trailer| {
            trailer.edition = edition;
            trailer.geometry.rows = 1;
        })
    };
    for edition in [0, 3, 257, u32::MAX] {
        assert_eq!(number(edition), Some(2));
    }
    assert_eq!(number(1), Some(3));
}

/// The number that G gets after a change of its geometry, its back being wrong.
fn number_after_geometry(change: &dyn Fn(&mut Geometry)) -> Option<Number> {
    number_after(|trailer| {
        trailer.back = 0;
        change(&mut trailer.geometry);
    })
}

#[test]
fn question_3_rows_and_columns_precede_question_4() {
    limits::rows_and_columns(&number_after_geometry);
}

#[test]
fn question_4_the_spacings_precede_question_5() {
    limits::spacings(&number_after_geometry);
}

#[test]
fn question_5_the_bounds_precede_question_6() {
    limits::bounds(&number_after_geometry);
}

#[test]
fn question_6_back_and_the_length() {
    assert_eq!(number_after(|trailer| trailer.back = 147), Some(6));
    assert_eq!(number_after(|trailer| trailer.back = 149), Some(6));
    assert_eq!(number_after(|trailer| trailer.back = 148), None);
    assert_eq!(open_image(&grid_g()[1..]).err(), Some(6));
    let longer = [vec![255; 5], grid_g()].concat();
    assert_eq!(opened(&longer).node(0, 0), g_node(0, 0));
}

#[test]
fn question_7_precedes_question_8_and_differs_in_height_by_way() {
    let bytes = grid_g();
    let image = open_image(&bytes).unwrap();
    let beyond = |latitude, longitude| Fix {
        point: Point {
            latitude,
            longitude,
        },
        height: 0,
    };
    for fix in [beyond(90_000_000_001, 0), beyond(0, -180_000_000_001)] {
        assert_eq!(way_out(&image, fix), Err(7));
        assert_eq!(way_back(&image, fix), Err(7));
    }
    assert_eq!(way_out(&image, beyond(90_000_000_000, 0)), Err(8));
    let at_height = |height| fix_at(602, 450, height);
    assert!(way_out(&image, at_height(-100_000_000)).is_ok());
    assert_eq!(way_out(&image, at_height(100_000_001)), Err(7));
    assert!(way_back(&image, at_height(110_000_000)).is_ok());
    assert_eq!(way_back(&image, at_height(-110_000_001)), Err(7));
}

/// The number that the point on G's south-west corner gets if only one node of its cell differs
/// from zero, in one value.
fn number_with(corner: i32, value: usize, stands_there: i32) -> Option<Number> {
    let bytes = image_of(&G_TRAILER, |row, column| {
        let mut node = [0; 3];
        if (row, column) == (corner / 2, corner % 2) {
            node[value] = stands_there;
        }
        node
    });
    let image = open_image(&bytes).unwrap();
    let corner = fix_at(0, 0, 0).point;
    let number = image.corrections(corner).err();
    assert_eq!(image.height(corner).err(), number);
    number
}

#[test]
fn question_9_asks_all_three_values_of_all_four_nodes() {
    for corner in 0..4 {
        for (value, limit) in [10_000_000, 10_000_000, 1_000_000].into_iter().enumerate() {
            for sign in [-1, 1] {
                assert_eq!(number_with(corner, value, sign * limit), None);
                assert_eq!(number_with(corner, value, sign * (limit + 1)), Some(9));
            }
        }
    }
}

/// A grid with spacings 1 and two columns: the latitude correction at row r is the r-th one.
fn grid_by_row(corrections: &[i32]) -> Vec<u8> {
    let rows = corrections.len() as u32;
    let trailer = Trailer::over(Geometry {
        latitude_spacing: 1,
        longitude_spacing: 1,
        rows,
        columns: 2,
        ..G_GEOMETRY
    });
    image_of(&trailer, |row, _| [corrections[row as usize], 0, 0])
}

/// The way out from row 5 of such a grid: the row and count, or the number.
fn out_from_row_5(corrections: &[i32]) -> Result<(i128, i128), Number> {
    let bytes = grid_by_row(corrections);
    let answer = way_out(&open_image(&bytes).unwrap(), fix_at(5, 0, 0))?;
    Ok((answer.point.latitude - i128::from(SOUTH), answer.count))
}

#[test]
fn question_10_precedes_the_stop_test() {
    assert_eq!(out_from_row_5(&[0, 0, 0, 0, 0, 1]), Ok((4, 1)));
    assert_eq!(out_from_row_5(&[0, 0, 0, 0, 0, -1]), Err(10));
}

#[test]
fn a_way_that_stops_at_p5_has_count_5_and_uses_the_cell_of_p5() {
    // The rows of p0 to p5: 5, 8, 10, 7, 3, 2.
    let mut corrections = [0, 0, 0, 3, 0, -3, 0, 2, -5, 0, -2, 0];
    assert_eq!(out_from_row_5(&corrections), Ok((2, 5)));
    corrections[2] = 10_000_001;
    assert_eq!(out_from_row_5(&corrections), Err(9));
}

#[test]
fn a_way_that_does_not_stop_gives_11_and_leaves_the_cell_of_p5_alone() {
    // The rows of p0 to p5: 5, 2, 8, 4, 11, 0.
    let mut corrections = [0, 0, -3, 0, -6, 3, 0, 0, 1, 0, 0, 5];
    assert_eq!(out_from_row_5(&corrections), Err(11));
    corrections[0] = 10_000_001;
    assert_eq!(out_from_row_5(&corrections), Err(11));
    corrections[10] = -10_000_001;
    assert_eq!(out_from_row_5(&corrections), Err(9));
}

#[test]
fn question_14_the_lengths_of_a_list() {
    let fixes = [0; 7];
    for (fixes_length, answers_length) in [
        (0, 5),
        (1, 0),
        (3, 0),
        (3, 4),
        (3, 6),
        (3, 10),
        (6, 5),
        (7, 10),
    ] {
        let refused = list_out(&grid_g(), &fixes[..fixes_length], answers_length);
        assert_eq!(refused, Err(14));
    }
    assert_eq!(list_back(&grid_g(), &[], 0), Ok(vec![]));
    assert_eq!(list_back(&[], &[], 1), Err(1));
}

#[test]
fn a_refused_fix_gives_four_zeros_and_does_not_end_the_list() {
    let fixes = [
        SOUTH + 2_001,
        WEST,
        0,
        SOUTH + 500,
        WEST + 500,
        10_000,
        0,
        i64::MIN,
        0,
    ];
    let answers = [
        [0, 0, 0, 0, 8],
        [SOUTH + 602, WEST + 450, 440_003, 1, 0],
        [0, 0, 0, 0, 7],
    ];
    assert_eq!(list_back(&grid_g(), &fixes, 15), Ok(answers.concat()));
}
