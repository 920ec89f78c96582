//! Lists of fixes.

use crate::{ask, open_image, way_back, way_out, Answer, Fix, Image, Number, Point};

/// "One list call converts all its fixes the same way": out.
pub fn list_out(image: &[u8], fixes: &[i64], answers_length: usize) -> Result<Vec<i64>, Number> {
    convert_list(image, fixes, answers_length, way_out)
}

/// "or back."
pub fn list_back(image: &[u8], fixes: &[i64], answers_length: usize) -> Result<Vec<i64>, Number> {
    convert_list(image, fixes, answers_length, way_back)
}

/// Converts each fix by one way. The whole answer list, or the number after which "the answer
/// list is unchanged".
pub fn convert_list(
    image: &[u8],
    fixes: &[i64],
    answers_length: usize,
    way: impl Fn(&Image, Fix) -> Result<Answer, Number>,
) -> Result<Vec<i64>, Number> {
    let image = open_image(image)?;
    // "Lists then put question 14: is the fixes' length 3 times some n, and the answers' length
    // 5 times the same n? Else 14."
    let n = fixes.len() / 3;
    ask(fixes.len() == 3 * n && answers_length == 5 * n, 14)?;
    // "Next each fix in turn". "A refused fix doesn't end the list."
    let answers = fixes.chunks_exact(3).flat_map(|fix| {
        let fix = Fix {
            point: Point {
                latitude: fix[0].into(),
                longitude: fix[1].into(),
            },
            height: fix[2].into(),
        };
        answer_numbers(way(&image, fix))
    });
    Ok(answers.collect())
}

/// "An answer is latitude, longitude, height, count, number (i64 too); accepted fixes have
/// number 0, refused ones four zeros and their number." "Off the height grid the answer's height is
/// 0 and its number 100".
fn answer_numbers(answer: Result<Answer, Number>) -> [i64; 5] {
    match answer {
        Ok(answer) => [
            answer.point.latitude,
            answer.point.longitude,
            answer.height.unwrap_or(0),
            answer.count,
            if answer.height.is_some() { 0 } else { 100 },
        ]
        .map(|number| i64::try_from(number).expect("an answer fits 64 bits")),
        Err(number) => [0, 0, 0, 0, number],
    }
}
