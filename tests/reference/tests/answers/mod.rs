//! Single conversions over an image's bytes, and their answers by offsets from G's south-west
//! corner.

use crate::common::fix_at;
use reference::{open_image, Answer, Fix, Image, Number};

pub type Way = fn(&Image, Fix) -> Result<Answer, Number>;

pub fn convert(way: Way, image: &[u8], fix: Fix) -> Result<Answer, Number> {
    way(&open_image(image)?, fix)
}

pub fn answer(latitude: i64, longitude: i64, height: i64, count: i128) -> Result<Answer, Number> {
    let fix = fix_at(latitude, longitude, height);
    Ok(Answer {
        point: fix.point,
        height: Some(fix.height),
        count,
    })
}
