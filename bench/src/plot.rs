//! The plot, in SVG: one panel for each of an edition's tables, with a scale of powers of ten.

use crate::counts::{Counts, Three};
use crate::plan::{LENGTHS, SIZES};
use crate::speeds::{Conversions, Speeds};
use crate::table::size_words;
use std::fmt::Write;

/// A panel's title, the names along its foot, and its lines.
struct Panel {
    title: &'static str,
    names: Vec<String>,
    lines: Vec<Line>,
}

/// A line's name and values.
struct Line {
    name: &'static str,
    values: Vec<f64>,
}

const NAMES: [&str; 4] = ["library", "i128", "f64", "PROJ"];
const COLOURS: [&str; 4] = ["#1f5fa8", "#d9822b", "#8a4fa3", "#5a8f3d"];
const PANEL_WIDTH: f64 = 460.0;
const PANEL_HEIGHT: f64 = 300.0;
const LEFT: f64 = 80.0;
const TOP: f64 = 40.0;
const PLOT_WIDTH: f64 = 340.0;
const PLOT_HEIGHT: f64 = 210.0;

pub fn write(speeds: &Speeds, counts: &Counts) -> String {
    let panels = panels(speeds, counts);
    let rows = panels.len().div_ceil(2);
    let (width, height) = (2.0 * PANEL_WIDTH, rows as f64 * PANEL_HEIGHT + 10.0);
    let mut text = format!(
        "<svg xmlns=\"http://www.w3.org/2000/svg\" viewBox=\"0 0 {width} {height}\" \
         font-family=\"sans-serif\" font-size=\"11\">\n\
         <title>Speed of the conversion, edition 1</title>\n\
         <rect width=\"{width}\" height=\"{height}\" fill=\"white\"/>\n"
    );
    for (index, panel) in panels.iter().enumerate() {
        let x = (index % 2) as f64 * PANEL_WIDTH;
        let y = (index / 2) as f64 * PANEL_HEIGHT;
        let _ = writeln!(text, "<g transform=\"translate({x} {y})\">");
        panel.write(&mut text);
        text += "</g>\n";
    }
    text + "</svg>\n"
}

fn panels(speeds: &Speeds, counts: &Counts) -> Vec<Panel> {
    let sizes = || SIZES.map(size_words).to_vec();
    let lengths = || LENGTHS.map(|it| it.to_string()).to_vec();
    let counted = || (1..=5).map(|it| format!("count {it}")).collect();
    let out = |it: &Conversions| it.out.to_vec();
    let back = |it: &Conversions| it.back.to_vec();
    let instructions = |it: &Three| it.map(|it| it as f64).to_vec();
    let (by_size, by_length) = (&speeds.by_size, &speeds.by_length);
    vec![
        Panel::new("Out per second, by grid size", sizes(), by_size, out),
        Panel::new("Back per second, by grid size", sizes(), by_size, back),
        Panel::new("Out per second, by list length", lengths(), by_length, out),
        Panel::new(
            "Back per second, by list length",
            lengths(),
            by_length,
            back,
        ),
        Panel::new(
            "Grid check: nodes per second",
            sizes(),
            &speeds.checks,
            |it| it.to_vec(),
        ),
        Panel::new(
            "Instructions of one way out",
            counted(),
            &counts.by_count,
            instructions,
        ),
    ]
}

impl Panel {
    /// The panel of rows, each with a value for each line.
    fn new<Row>(
        title: &'static str,
        names: Vec<String>,
        rows: &[Row],
        values: impl Fn(&Row) -> Vec<f64>,
    ) -> Panel {
        let table: Vec<Vec<f64>> = rows.iter().map(values).collect();
        let line = |index: usize| Line {
            name: NAMES[index],
            values: table.iter().map(|row| row[index]).collect(),
        };
        let lines = (0..table[0].len()).map(line).collect();
        Panel {
            title,
            names,
            lines,
        }
    }

    /// The powers of ten at the panel's foot and head.
    fn scale(&self) -> (f64, f64) {
        let values = || self.lines.iter().flat_map(|line| &line.values);
        let least = values().copied().fold(f64::INFINITY, f64::min);
        let most = values().copied().fold(1.0, f64::max);
        (least.log10().floor(), most.log10().ceil())
    }

    fn write(&self, text: &mut String) {
        let (low, high) = self.scale();
        let x = |index: usize| LEFT + PLOT_WIDTH * (index as f64 + 0.5) / self.names.len() as f64;
        let y = |value: f64| TOP + PLOT_HEIGHT * (high - value.log10()) / (high - low);
        let _ = writeln!(
            text,
            "<text x=\"{LEFT}\" y=\"20\" font-size=\"13\" font-weight=\"bold\">{}</text>",
            self.title
        );
        for power in low as i32..=high as i32 {
            write_rule(text, y(10f64.powi(power)), power);
        }
        for (index, name) in self.names.iter().enumerate() {
            let (x, y) = (x(index), TOP + PLOT_HEIGHT + 16.0);
            let _ = writeln!(
                text,
                "<text x=\"{x}\" y=\"{y}\" text-anchor=\"middle\" font-size=\"9\">{name}</text>"
            );
        }
        for (index, line) in self.lines.iter().enumerate() {
            let points = line.values.iter().enumerate();
            let points = points.map(|(place, value)| (x(place), y(*value))).collect();
            write_line(text, index, line.name, points);
        }
    }
}

/// A rule across the panel at a power of ten.
fn write_rule(text: &mut String, y: f64, power: i32) {
    let (right, label_x, label_y) = (LEFT + PLOT_WIDTH, LEFT - 6.0, y + 4.0);
    let _ = writeln!(
        text,
        "<line x1=\"{LEFT}\" y1=\"{y:.1}\" x2=\"{right}\" y2=\"{y:.1}\" stroke=\"#ddd\"/>\
         <text x=\"{label_x}\" y=\"{label_y:.1}\" text-anchor=\"end\">10<tspan dy=\"-4\" \
         font-size=\"8\">{power}</tspan></text>"
    );
}

/// A line through points, with its name in the panel's legend.
fn write_line(text: &mut String, index: usize, name: &str, points: Vec<(f64, f64)>) {
    let colour = COLOURS[index];
    let path: Vec<String> = points
        .iter()
        .map(|(x, y)| format!("{x:.1},{y:.1}"))
        .collect();
    let path = path.join(" ");
    let _ = writeln!(
        text,
        "<polyline points=\"{path}\" fill=\"none\" stroke=\"{colour}\" stroke-width=\"2\"/>"
    );
    for (x, y) in points {
        let _ = writeln!(
            text,
            "<circle cx=\"{x:.1}\" cy=\"{y:.1}\" r=\"3\" fill=\"{colour}\"/>"
        );
    }
    let x = LEFT + 90.0 * index as f64;
    let y = TOP + PLOT_HEIGHT + 36.0;
    let _ = writeln!(
        text,
        "<circle cx=\"{x}\" cy=\"{}\" r=\"4\" fill=\"{colour}\"/><text x=\"{}\" y=\"{y}\">{name}</text>",
        y - 4.0,
        x + 8.0
    );
}
