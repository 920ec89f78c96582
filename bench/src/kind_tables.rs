//! The tables that kinds 1 to 3 have of their own.

use crate::speeds::{Beside, BesideKind0, PastTheEdge};
use crate::table::{grouped, two, Measured};
use bench::converters::Direction;
use bench::Edition;
use std::fmt::Write;

/// The tables with this head, none where nothing was measured for them.
pub fn write(head: &str, Measured { plan, speeds, .. }: &Measured) -> String {
    let mut text = String::new();
    let kind = match plan.edition {
        Edition::First | Edition::Second => 0,
        Edition::SecondDense => 1,
        Edition::SecondUnbounded => 2,
        Edition::SecondPlanes => 3,
    };
    if !speeds.beside_kind_0.is_empty() {
        let words = "conversions per second beside kind 0, on the same fixes";
        let _ = writeln!(text, "{head} {words}");
        text += &beside_kind_0(kind, &speeds.sizes, &speeds.beside_kind_0);
    }
    if !speeds.checks_beside_kind_0.is_empty() {
        let words = "grid check beside kind 0, nodes of both grids per second";
        let _ = writeln!(text, "{head} {words}");
        let checks = speeds.checks_beside_kind_0.iter();
        text += &beside("grid", kind, &speeds.sizes, checks);
    }
    if !speeds.converters.by_size.is_empty() {
        let _ = writeln!(text, "{head} converters, bytes of the image per second");
        text += &converters(&speeds.sizes, &speeds.converters.by_size);
    }
    if !speeds.past_the_edge.is_empty() {
        let past = "conversions per second, every other fix past the edge";
        let _ = writeln!(text, "{head} {past}");
        text += &past_the_edge(&speeds.sizes, &speeds.past_the_edge);
    }
    text
}

fn beside_kind_0(kind: u32, names: &[String], rows: &[BesideKind0]) -> String {
    let out = beside("out: grid", kind, names, rows.iter().map(|it| &it.out));
    out + &beside("back: grid", kind, names, rows.iter().map(|it| &it.back))
}

/// The speeds over both kinds, and how many times as long the other kind takes.
fn beside<'a>(
    first: &str,
    kind: u32,
    names: &[String],
    rows: impl Iterator<Item = &'a Beside>,
) -> String {
    let mut text = format!("\n{first} |");
    for program in ["library", "i128"] {
        let _ = write!(text, " {program}, kind 0 | {program}, kind {kind} |");
    }
    for program in ["library", "i128"] {
        let _ = write!(text, " {program}: time of kind {kind} / kind 0 |");
    }
    text += "\n---|---:|---:|---:|---:|---:|---:|\n";
    for (name, Beside { library, plain }) in names.iter().zip(rows) {
        let [without, with] = library.map(grouped);
        let [plain_without, plain_with] = plain.map(grouped);
        let _ = write!(text, "{name} | {without} | {with} | ");
        let _ = write!(text, "{plain_without} | {plain_with} | ");
        let [slower, plain_slower] = [library, plain].map(times_as_long);
        let _ = writeln!(text, "{slower:.2} | {plain_slower:.2} |");
    }
    text
}

/// The library's speed in each direction beside that of the i128 implementation.
fn converters(names: &[String], rows: &[[[f64; 2]; 2]]) -> String {
    let mut text = String::new();
    for (index, direction) in Direction::ALL.iter().enumerate() {
        let first = format!("{}: grid", direction.words());
        let of_direction = rows.iter().map(|row| row[index]);
        text += "\n";
        text += &two(&first, names, of_direction);
    }
    text
}

/// The library's speed beside that of the two others that answer past the edge.
fn past_the_edge(names: &[String], rows: &[PastTheEdge]) -> String {
    let of_way = |way, rows: Vec<[f64; 3]>| {
        let head = "library | i128 | f64 | library / i128 | library / f64";
        let mut text = format!("\n{way}: grid | {head} |\n---|---:|---:|---:|---:|---:|\n");
        for (name, row) in names.iter().zip(rows) {
            let [library, plain, floating] = row;
            let [first, second, third] = row.map(grouped);
            let (to_plain, to_floating) = (library / plain, library / floating);
            let _ = writeln!(
                text,
                "{name} | {first} | {second} | {third} | {to_plain:.2} | {to_floating:.2} |"
            );
        }
        text
    };
    let out = of_way("out", rows.iter().map(|it| it.out).collect());
    out + &of_way("back", rows.iter().map(|it| it.back).collect())
}

/// How many times as long work takes over another kind than over kind 0.
pub fn times_as_long([without, with]: &[f64; 2]) -> f64 {
    without / with
}
