//! Measures the library, the plain implementations and PROJ over images of both editions, of the
//! second in all kinds, the conversion of one kind to another, and that of VDatum and NTv2 files.
//! `bench FOLDER` writes the table and the plot there, as table.md and plot.svg; `bench --quick`
//! prints a short table of each edition and of the files.

mod agreement;
mod converter_agreement;
mod converter_speeds;
mod counts;
mod file_agreement;
mod file_speeds;
mod goals;
#[cfg(test)]
mod image_tests;
mod kind_tables;
mod machine;
mod measure;
mod plan;
mod plot;
mod proj;
mod proj_files;
mod refusals;
mod speeds;
mod table;
mod temporary;

use bench::Edition;
use plan::{FilePlan, Plan};
use std::path::Path;
use std::{env, fs};
use table::Measured;

fn main() {
    let word = env::args().nth(1).expect("the results' folder or --quick");
    if word == "--quick" {
        for edition in Edition::ALL {
            print!("{}", table::edition(&measure(Plan::quick(edition))));
        }
        for files in &file_speeds::measure_all(&FilePlan::quick()) {
            print!("{}", table::files(files));
        }
    } else {
        write_results(Path::new(&word));
    }
}

fn write_results(folder: &Path) {
    let editions = Edition::ALL.map(|it| measure(Plan::whole(it)));
    let files = file_speeds::measure_all(&FilePlan::whole());
    fs::create_dir_all(folder).expect("the results' folder");
    let table = table::write(&editions, &files);
    print!("{table}");
    fs::write(folder.join("table.md"), table).expect("the table");
    let [first, ..] = &editions;
    let plot = plot::write(&first.speeds, &first.counts);
    fs::write(folder.join("plot.svg"), plot).expect("the plot");
}

fn measure(plan: Plan) -> Measured {
    Measured {
        speeds: speeds::measure(&plan),
        counts: counts::count(&plan),
        plan,
    }
}
