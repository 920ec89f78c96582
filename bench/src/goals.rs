//! The goals, and whether the measurements meet them.

use crate::file_speeds::FileSpeeds;
use crate::kind_tables::times_as_long;
use crate::plan::{LARGEST, SIZE_OF_LENGTHS};
use crate::speeds::{Conversions, Four};
use crate::table::{size_words, Measured};
use std::fmt::Write;

/// A ratio that is to be at least so much.
struct Goal {
    words: String,
    measured: f64,
    wanted: f64,
}

/// Places in a `Four`.
const LIBRARY: usize = 0;
const PLAIN: usize = 1;
const FLOATING: usize = 2;
const PROJ: usize = 3;

pub fn write(editions: &[Measured], files: &[FileSpeeds]) -> String {
    let mut text = String::from("\n## Goals\n\ngoal | measured | |\n---|---:|---|\n");
    let told = |met: bool| if met { "met" } else { "missed" };
    let goals = all_editions(editions).into_iter();
    let goals = goals.chain(beside_floating(&editions[0]));
    for goal in goals.chain(files.iter().map(of_files)) {
        let (words, measured, wanted) = (goal.words, goal.measured, goal.wanted);
        let met = told(measured >= wanted);
        let _ = writeln!(
            text,
            "{words} is at least {wanted} | {measured:.2} | {met} |"
        );
    }
    let growth = largest(editions.iter().map(growth));
    let words = "instructions of a fix: most / least over an edition's grid sizes is below 1.01";
    let _ = writeln!(text, "{words} | {growth:.3} | {} |", told(growth < 1.01));
    for (way, slower) in slower_than_kind_0(&editions[2]) {
        let size = size_words(SIZE_OF_LENGTHS);
        let words = format!("{way}, {size}: time of kind 1 / kind 0 is at most 1.25");
        let _ = writeln!(text, "{words} | {slower:.2} | {} |", told(slower <= 1.25));
    }
    for files in files {
        let (kind, size) = (files.kind.words(), size_words(LARGEST));
        let words = format!("{kind} files of {size}: most seconds of the library are below 1");
        let seconds = largest_file(files);
        let _ = writeln!(text, "{words} | {seconds:.2} | {} |", told(seconds < 1.0));
    }
    text
}

/// The goals over all rows of both editions and of each kind; PROJ's not where fixes lie past the edge.
fn all_editions(editions: &[Measured]) -> [Goal; 3] {
    let conversions = |other: usize| {
        let rows = editions.iter().flat_map(|it| {
            let speeds = &it.speeds;
            let near = speeds.by_size.iter().chain(&speeds.by_length);
            near.chain(&speeds.wide)
        });
        least(rows.flat_map(move |it| [it.out, it.back].map(|four| four[LIBRARY] / four[other])))
    };
    let edges = editions.iter().flat_map(|it| &it.speeds.past_the_edge);
    let edges = edges.flat_map(|it| [it.out, it.back].map(|three| three[LIBRARY] / three[PLAIN]));
    let beside_plain = conversions(PLAIN).min(least(edges));
    let checks = editions.iter().flat_map(|it| &it.speeds.checks);
    let goal = |words: &str, measured: f64, wanted: f64| Goal {
        words: words.to_string(),
        measured,
        wanted,
    };
    [
        goal("conversions: least library / i128", beside_plain, 1.0),
        goal(
            "grid check: least library / i128",
            least(checks.map(|[library, plain]| library / plain)),
            1.0,
        ),
        goal("conversions: least library / PROJ", conversions(PROJ), 3.0),
    ]
}

/// How many times as long the library takes with a dense grid, going out and back, on one grid.
fn slower_than_kind_0(dense: &Measured) -> [(&'static str, f64); 2] {
    let beside = &dense.speeds.beside_kind_0[row_of_lengths(dense)];
    [
        ("out", times_as_long(&beside.out.library)),
        ("back", times_as_long(&beside.back.library)),
    ]
}

/// The row of the grid for the goals on one grid.
fn row_of_lengths(measured: &Measured) -> usize {
    let sizes = &mut measured.plan.sizes.iter();
    let row = sizes.position(|it| *it == SIZE_OF_LENGTHS);
    row.expect("that size is among the sizes")
}

/// The goals beside f64, of edition 1 on one grid.
fn beside_floating(first: &Measured) -> [Goal; 2] {
    let row: &Conversions = &first.speeds.by_size[row_of_lengths(first)];
    let size = size_words(SIZE_OF_LENGTHS);
    let goal = |way: &str, four: Four, wanted: f64| Goal {
        words: format!("{way}, edition 1, {size}: library / f64"),
        measured: four[LIBRARY] / four[FLOATING],
        wanted,
    };
    [goal("out", row.out, 0.9), goal("back", row.back, 0.6)]
}

/// The goal beside i128 over all files of a kind.
fn of_files(files: &FileSpeeds) -> Goal {
    let ratios = files.files.iter().map(|file| {
        let [library, plain] = file.nodes_per_second();
        library / plain
    });
    Goal {
        words: format!("{} files: least library / i128", files.kind.words()),
        measured: least(ratios),
        wanted: 1.0,
    }
}

/// The library's most seconds of a file of the largest size.
fn largest_file(files: &FileSpeeds) -> f64 {
    let such = files.files.iter().filter(|file| file.size == LARGEST);
    largest(such.map(|file| file.seconds[LIBRARY]))
}

/// The library's most instructions of a fix over an edition's grid sizes, to its least.
fn growth(measured: &Measured) -> f64 {
    let instructions = || measured.counts.by_size.iter().map(|it| it[LIBRARY] as f64);
    largest(instructions()) / least(instructions())
}

fn least(values: impl Iterator<Item = f64>) -> f64 {
    values.fold(f64::INFINITY, f64::min)
}

fn largest(values: impl Iterator<Item = f64>) -> f64 {
    values.fold(0.0, f64::max)
}
