//! Instructions of one conversion, counted by callgrind: of a list call with two fixes less those
//! of the call with one.

use crate::plan::Plan;
use bench::Edition;
use std::env;
use std::process::Command;

/// Instructions of one conversion, of the library, the i128 and the f64 implementation.
pub type Three = [u64; 3];

pub struct Counts {
    /// Out, at the counts 1 to 5.
    pub by_count: Vec<Three>,
    /// Out at the count 1, by grid size.
    pub by_size: Vec<Three>,
    /// Back.
    pub back: Three,
    /// Out at the count 3 and back, where edition 2's height cells are wide.
    pub wide: Option<[Three; 2]>,
}

pub fn count(plan: &Plan) -> Counts {
    eprintln!("{}: instructions", plan.edition.words());
    let of = |case: String| conversion(plan.edition, &case);
    let by_count = (1..=5).map(|count| of(format!("out count {count}")));
    let by_size = plan.sizes.iter();
    let by_size = by_size.map(|(rows, columns)| of(format!("out size {rows} {columns}")));
    Counts {
        by_count: by_count.collect(),
        by_size: by_size.collect(),
        back: of("back count 1".to_string()),
        wide: (!plan.wide_sizes.is_empty())
            .then(|| ["out wide 3", "back wide 1"].map(|case| of(case.to_string()))),
    }
}

/// Instructions of one conversion of a case, by each implementation.
fn conversion(edition: Edition, case: &str) -> Three {
    let edition = edition.word();
    ["library", "plain", "floating"].map(|implementation| {
        let one = instructions(&format!("{edition} {implementation} {case} 1"));
        let two = instructions(&format!("{edition} {implementation} {case} 2"));
        two - one
    })
}

/// Instructions within the list call of the program one-list, which is beside this one.
fn instructions(words: &str) -> u64 {
    let program = env::current_exe()
        .expect("this program's path")
        .with_file_name("one-list");
    let output = Command::new("valgrind")
        .args(["--tool=callgrind", "--callgrind-out-file=/dev/null"])
        .arg("--toggle-collect=counted_call")
        .arg(program)
        .args(words.split(' '))
        .output()
        .expect("valgrind runs");
    let told = String::from_utf8_lossy(&output.stderr);
    assert!(output.status.success(), "one-list {words} fails: {told}");
    let line = told
        .lines()
        .find(|line| line.contains("Collected :"))
        .expect("a count");
    line.rsplit(' ')
        .next()
        .and_then(|it| it.parse().ok())
        .expect("a number")
}
