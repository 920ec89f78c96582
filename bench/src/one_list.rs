//! One list call in a process of its own, for callgrind: it collects within `counted_call` alone.
//! `one-list 1|2|2-dense|2-unbounded|2-planes library|plain|floating out|back count C N` calls, over an
//! image of that edition, of the second of that kind, with N equal fixes whose way out has the count C;
//! `.. size ROWS COLUMNS N` with N equal fixes over a grid of that size; `.. wide C N` with N equal
//! fixes over one with wide height cells, where the way out has the count C.

use bench::{fixes, grid, Edition, Implementation, Way};
use std::hint::black_box;

/// What is counted. Its name is not mangled, so that callgrind's option can name it.
#[no_mangle]
#[inline(never)]
pub fn counted_call(
    implementation: Implementation,
    way: Way,
    image: &[u8],
    fixes: &[i64],
    answers: &mut [i64],
) -> i64 {
    implementation.list(way, image, fixes, answers)
}

fn main() {
    let words: Vec<String> = std::env::args().skip(1).collect();
    let edition = Edition::of_word(&words[0]).expect("an edition");
    let implementation = match words[1].as_str() {
        "library" => Implementation::Library,
        "plain" => Implementation::Plain,
        "floating" => Implementation::Floating,
        other => panic!("no implementation {other}"),
    };
    let way = match words[2].as_str() {
        "out" => Way::Out,
        "back" => Way::Back,
        other => panic!("no way {other}"),
    };
    call(edition, implementation, way, &words[3..]);
}

/// The call of a case, which must be answered.
fn call(edition: Edition, implementation: Implementation, way: Way, case: &[String]) {
    let numbers: Vec<u32> = case[1..]
        .iter()
        .map(|it| it.parse().expect("a number"))
        .collect();
    let (grid, count, fix_count) = match (case[0].as_str(), numbers.as_slice()) {
        ("count", &[count, fixes]) => (grid::with_count(edition, count), count, fixes),
        ("size", &[rows, columns, fixes]) => (grid::zeros(edition, rows, columns), 1, fixes),
        ("wide", &[count, fixes]) => (grid::wide_heights(64, 64), count, fixes),
        _ => panic!("no case {case:?}"),
    };
    let fixes = fixes::middle(&grid.corrections, fix_count as usize);
    let mut answers = vec![0; 5 * fix_count as usize];
    let image = black_box(&grid.image);
    let number = counted_call(implementation, way, image, &fixes, &mut answers);
    assert_eq!(number, 0);
    let answered = |it: &[i64]| it[3] == i64::from(count) && it[4] == 0;
    assert!(answers.chunks(5).all(answered), "{answers:?}");
}
