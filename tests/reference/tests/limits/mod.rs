//! Questions 3 to 5 at their limits, for a geometry of either edition's trailer: in each test the
//! answer to the next question is no, so that its number shows that the question passed.

use reference::{Geometry, Number};

/// The number that an image gets after a change of its geometry, all its backs being wrong.
pub type NumberAfter = dyn Fn(&dyn Fn(&mut Geometry)) -> Option<Number>;

/// Question 3, before question 4.
pub fn rows_and_columns(number_after: &NumberAfter) {
    let number = |rows, columns| {
        number_after(&|geometry| {
            (geometry.rows, geometry.columns) = (rows, columns);
            geometry.latitude_spacing = 0;
        })
    };
    for count in [0, 1, 4_097, u32::MAX] {
        assert_eq!(number(count, 2), Some(3));
        assert_eq!(number(2, count), Some(3));
    }
    assert_eq!(number(2, 4_096), Some(4));
    assert_eq!(number(4_096, 2), Some(4));
}

/// Question 4, before question 5.
pub fn spacings(number_after: &NumberAfter) {
    let number = |latitude_spacing, longitude_spacing| {
        number_after(&|geometry| {
            geometry.latitude_spacing = latitude_spacing;
            geometry.longitude_spacing = longitude_spacing;
            geometry.south = i64::MAX;
        })
    };
    for spacing in [0, 100_000_001, u32::MAX] {
        assert_eq!(number(spacing, 1), Some(4));
        assert_eq!(number(1, spacing), Some(4));
    }
    assert_eq!(number(1, 100_000_000), Some(5));
    assert_eq!(number(100_000_000, 1), Some(5));
}

/// Question 5, before question 6, for three rows and columns with spacings 1,000.
pub fn bounds(number_after: &NumberAfter) {
    let number = |south: i64, west: i64| {
        number_after(&|geometry| {
            (geometry.rows, geometry.columns) = (3, 3);
            (geometry.latitude_spacing, geometry.longitude_spacing) = (1_000, 1_000);
            (geometry.south, geometry.west) = (south, west);
        })
    };
    for south in [-90_000_000_001, 90_000_000_000 - 1_999, i64::MIN, i64::MAX] {
        assert_eq!(number(south, 0), Some(5));
    }
    let far = 180_000_000_000;
    for west in [-far - 1, far - 1_999, i64::MIN, i64::MAX] {
        assert_eq!(number(0, west), Some(5));
    }
    assert_eq!(number(-90_000_000_000, -far), Some(6));
    assert_eq!(number(89_999_998_000, far - 2_000), Some(6));
}
