//! The table, in Markdown.

use crate::agreement::OTHER_FIXES;
use crate::counts::{Counts, Three};
use crate::file_speeds::FileSpeeds;
use crate::goals;
use crate::kind_tables;
use crate::machine;
use crate::plan::{Plan, Size, LENGTH_OF_DISTANCE, LENGTH_OF_SIZES, SIZE_OF_LENGTHS};
use crate::speeds::{Conversions, Four, Speeds};
use bench::grid::{Geometry, Grid};
use bench::Edition;
use std::fmt::Write;

const FOUR_HEAD: &str =
    "library | i128 | f64 | PROJ | library / i128 | library / f64 | library / PROJ";

/// All that was measured of an edition.
pub struct Measured {
    pub plan: Plan,
    pub speeds: Speeds,
    pub counts: Counts,
}

pub fn write(editions: &[Measured], files: &[FileSpeeds]) -> String {
    let mut text = String::from("# Speed of the conversion\n\n");
    text += &machine::words();
    let _ = writeln!(
        text,
        "\nMedians of {} measurements of the thread's processor time, taken in turn, PROJ's apart. The load \
         of the machine was {} after them. The counts of instructions are exact.",
        editions[0].plan.repeats,
        machine::load()
    );
    for measured in editions {
        text += &edition(measured);
    }
    for files in files {
        text += &self::files(files);
    }
    text += &agreement(editions, files);
    text += &goals::write(editions, files);
    text
}

/// The tables of an edition.
pub fn edition(measured: &Measured) -> String {
    let Measured {
        plan,
        speeds,
        counts,
    } = measured;
    let (length, size) = (grouped(LENGTH_OF_SIZES as f64), size_words(SIZE_OF_LENGTHS));
    let head = format!("\n## {}:", plan.edition.words());
    let mut text = String::new();
    let of_size = format!("by grid size (lists of {length} fixes)");
    let _ = writeln!(text, "{head} conversions per second, {of_size}");
    text += &conversions("grid", &speeds.sizes, &speeds.by_size);
    if !plan.lengths.is_empty() {
        let lengths: Vec<String> = plan.lengths.iter().map(usize::to_string).collect();
        let of_length = format!("by list length (grid of {size})");
        let _ = writeln!(text, "{head} conversions per second, {of_length}");
        text += &conversions("fixes", &lengths, &speeds.by_length);
    }
    if !speeds.wide.is_empty() {
        let of_cells = "heights in cells wider than 2^48 nd²";
        let _ = writeln!(text, "{head} conversions per second, {of_cells}");
        text += &conversions("grid", &speeds.wide_sizes, &speeds.wide);
    }
    text += &kind_tables::write(&head, measured);
    let nodes = match plan.edition {
        Edition::First => "nodes",
        Edition::SecondDense => "nodes of all three grids",
        _ => "nodes of both grids",
    };
    let _ = writeln!(text, "{head} grid check, {nodes} per second\n");
    text += &two("grid", &speeds.sizes, speeds.checks.iter().copied());
    let _ = writeln!(text, "{head} instructions of one conversion (callgrind)\n");
    text += &instructions(&speeds.sizes, counts);
    text
}

/// The table of a kind of files.
pub fn files(files: &FileSpeeds) -> String {
    let kind = files.kind.words();
    let mut text = format!("\n## {kind} files: nodes converted per second\n\n");
    text += "file | library | i128 | library / i128 | library, seconds a file |\n";
    text += "---|---:|---:|---:|---:|\n";
    for file in &files.files {
        let [library, plain] = file.nodes_per_second();
        let (first, second) = (grouped(library), grouped(plain));
        let (words, ratio, seconds) = (&file.words, library / plain, file.seconds[0]);
        let _ = writeln!(
            text,
            "{words} | {first} | {second} | {ratio:.2} | {seconds:.4} |"
        );
    }
    text
}

/// Rows and columns.
pub fn size_words((rows, columns): Size) -> String {
    format!("{rows} × {columns}")
}

/// Rows and columns of the corrections, of the heights where these have their own, and of dense
/// corrections.
pub fn grid_words(grid: &Grid) -> String {
    let words = |it: &Geometry| size_words((it.rows, it.columns));
    let mut text = words(&grid.corrections);
    if grid.edition != Edition::First {
        let _ = write!(text, ", heights {}", words(&grid.heights));
    }
    if let Some(dense) = &grid.dense {
        let _ = write!(text, ", dense {}", words(dense));
    }
    text
}

fn conversions(first: &str, names: &[String], rows: &[Conversions]) -> String {
    let mut text = String::new();
    for (way, of_way) in [("out", 0), ("back", 1)] {
        let added = if of_way == 0 { " mean count |" } else { "" };
        let lines = if of_way == 0 { "---:|" } else { "" };
        let _ = write!(text, "\n{way}: {first} | {FOUR_HEAD} |{added}\n");
        let _ = writeln!(text, "---|---:|---:|---:|---:|---:|---:|---:|{lines}");
        for (name, row) in names.iter().zip(rows) {
            let speeds = if of_way == 0 { row.out } else { row.back };
            let _ = write!(text, "{name} | {} |", four(speeds));
            let _ = match of_way {
                0 => writeln!(text, " {:.2} |", row.mean_count),
                _ => writeln!(text),
            };
        }
    }
    text
}

fn four(speeds: Four) -> String {
    let [library, plain, floating, proj] = speeds;
    let ratios = [library / plain, library / floating].map(|it| format!("{it:.2}"));
    let [first, second, third, fourth] = speeds.map(grouped);
    let [to_plain, to_floating] = ratios;
    format!(
        "{first} | {second} | {third} | {fourth} | {to_plain} | {to_floating} | {:.1}",
        library / proj
    )
}

/// What the library and the i128 implementation alone do.
pub fn two(first: &str, names: &[String], rows: impl Iterator<Item = [f64; 2]>) -> String {
    let mut text = format!("{first} | library | i128 | library / i128 |\n");
    text += "---|---:|---:|---:|\n";
    for (name, [library, plain]) in names.iter().zip(rows) {
        let (first, second) = (grouped(library), grouped(plain));
        let _ = writeln!(
            text,
            "{name} | {first} | {second} | {:.2} |",
            library / plain
        );
    }
    text
}

fn instructions(sizes: &[String], counts: &Counts) -> String {
    let mut text = String::new();
    text += "case | library | i128 | f64 | library / i128 | library / f64 |\n";
    text += "---|---:|---:|---:|---:|---:|\n";
    let by_count = (1..).map(|count: usize| format!("out, count {count}"));
    let by_size = sizes
        .iter()
        .map(|size| format!("out, count 1, grid {size}"));
    let named = by_count
        .zip(&counts.by_count)
        .chain(by_size.zip(&counts.by_size));
    let wide = ["out, count 3, wide height cells", "back, wide height cells"].map(String::from);
    let wide = wide.into_iter().zip(counts.wide.iter().flatten());
    let back = [("back".to_string(), &counts.back)];
    for (name, row) in named.chain(back).chain(wide) {
        let [library, plain, floating]: Three = *row;
        let [to_plain, to_floating] = [plain, floating].map(|it| library as f64 / it as f64);
        let _ = writeln!(
            text,
            "{name} | {library} | {plain} | {floating} | {to_plain:.2} | {to_floating:.2} |"
        );
    }
    text
}

fn agreement(editions: &[Measured], files: &[FileSpeeds]) -> String {
    let [others, taken] = [OTHER_FIXES, LENGTH_OF_DISTANCE].map(|count| grouped(count as f64));
    let size = size_words(SIZE_OF_LENGTHS);
    let refused: usize = editions.iter().map(|it| it.speeds.refused).sum();
    let converters = editions.iter().map(|it| it.speeds.converters.refused);
    let converters: usize = converters.sum();
    let mut text = format!(
        "\n## Agreement\n\nThe library and the i128 implementation gave the same answers to all \
         fixes above, and to {others} more on, near and past the bounds of each grid of \
         corrections, in edition 2 of heights, in kind 1 of dense corrections, and in kind 2 past the \
         edge; also over images of kinds 0 and 3 whose heights leave out part of the corrections, where \
         fixes get number 15; the library gave the same over each grid of kind 3 and over the same of \
         kind 0; and they refused {refused} changed images of edition 2, of all its \
         kinds, with the same number, 20, 21 and 22 among them. They converted the images of kinds 0 \
         and 3 above to the same bytes, those of the other kind, and refused {converters} images and \
         buffers with the same number and nothing changed. They converted all files \
         above to the same nodes and geometry, and refused others with the same number and nothing \
         changed: {}. On the grids of {size} the answers to {taken} fixes lie at most so far from \
         the library's:\n\n",
        refused_words(files)
    );
    text += "image | f64, nd | f64, units | PROJ, nd | PROJ, units |\n";
    text += "---|---:|---:|---:|---:|\n";
    for Measured { plan, speeds, .. } in editions {
        let [floating, proj] = speeds.distances;
        let _ = writeln!(
            text,
            "{} | {:.0} | {:.0} | {:.2} | {:.2} |",
            plan.edition.words(),
            floating.angle,
            floating.height,
            proj.angle,
            proj.height
        );
    }
    text
}

/// How many files of each kind were refused, and with which numbers.
fn refused_words(files: &[FileSpeeds]) -> String {
    let of_kind = |it: &FileSpeeds| {
        let ([first, second], kind) = (it.kind.numbers(), it.kind.words());
        format!("{} {kind} files with {first} or {second}", it.refused)
    };
    files.iter().map(of_kind).collect::<Vec<_>>().join(", ")
}

/// A whole number with commas.
pub fn grouped(number: f64) -> String {
    let digits = format!("{number:.0}");
    let mut text = String::new();
    for (index, digit) in digits.chars().enumerate() {
        if index > 0 && (digits.len() - index) % 3 == 0 {
            text.push(',');
        }
        text.push(digit);
    }
    text
}
