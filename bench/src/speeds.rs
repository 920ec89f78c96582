//! The measurements: conversions and checked nodes per second.

use crate::agreement::{self, Distance};
use crate::converter_agreement;
use crate::converter_speeds::{self, ConverterSpeeds};
use crate::measure::{median_seconds, Work};
use crate::plan::{Plan, LENGTH_OF_DISTANCE, LENGTH_OF_SIZES, SIZE_OF_LENGTHS};
use crate::proj::{self, Pipeline};
use crate::proj_files;
use crate::refusals;
use crate::table::grid_words;
use crate::temporary::Folder;
use bench::grid::{self, Grid};
use bench::{fixes, library, plain, Edition, GridCheck, Implementation, Way};
use std::hint::black_box;

/// Conversions per second of the library, the i128 and the f64 implementation, and PROJ.
pub type Four = [f64; 4];

/// All that was measured of an edition.
#[derive(Default)]
pub struct Speeds {
    /// The grids' sizes in words.
    pub sizes: Vec<String>,
    pub by_size: Vec<Conversions>,
    pub by_length: Vec<Conversions>,
    /// The sizes in words of the grids with wide height cells, and the conversions over them.
    pub wide_sizes: Vec<String>,
    pub wide: Vec<Conversions>,
    /// Nodes per second of the library and the plain implementation, by grid size.
    pub checks: Vec<[f64; 2]>,
    /// In kinds 1 to 3: the conversions over the same grid of kind 0 and of that kind, by grid size.
    pub beside_kind_0: Vec<BesideKind0>,
    /// In kind 3: nodes per second of the grid check over the same grids, by grid size.
    pub checks_beside_kind_0: Vec<Beside>,
    /// In kind 3: the converters from kind 0 to it and back.
    pub converters: ConverterSpeeds,
    /// In kind 2: the conversions of lists of which every other fix lies past the edge, by grid size.
    pub past_the_edge: Vec<PastTheEdge>,
    /// How far the answers of the f64 implementation and PROJ's lie from the library's.
    pub distances: [Distance; 2],
    /// In edition 2: images that both whole-number implementations refused with the same number.
    pub refused: usize,
}

/// Conversions per second, and the mean count of the ways out.
pub struct Conversions {
    pub out: Four,
    pub back: Four,
    pub mean_count: f64,
}

/// Conversions of the same fixes over the same grid, of kind 0 and of another kind.
pub struct BesideKind0 {
    pub out: Beside,
    pub back: Beside,
}

/// Conversions per second of the library, the i128 and the f64 implementation. PROJ has no answer
/// past the edge.
pub struct PastTheEdge {
    pub out: [f64; 3],
    pub back: [f64; 3],
}

/// Conversions or nodes per second over kind 0 and over the other kind.
pub struct Beside {
    pub library: [f64; 2],
    pub plain: [f64; 2],
}

/// A grid, PROJ's pipeline over it, and the number of measurements of one piece of work.
struct Bench {
    grid: Grid,
    pipeline: Pipeline,
    repeats: usize,
}

pub fn measure(plan: &Plan) -> Speeds {
    let folder = Folder::new();
    let mut speeds = Speeds::default();
    if plan.edition == Edition::Second {
        agreement::require_off_heights(&grid::narrow_heights());
    }
    if plan.edition == Edition::SecondPlanes {
        agreement::require_off_heights(&grid::narrow_heights().in_planes());
        speeds.converters.refused = converter_agreement::require_refusals();
    }
    speeds.refused = refusals::require(plan.edition);
    for &(rows, columns) in plan.sizes {
        let grid = grid::national(plan.edition, rows, columns);
        speeds.sizes.push(grid_words(&grid));
        let bench = Bench::over(grid, plan, &folder);
        speeds.by_size.push(bench.conversions(LENGTH_OF_SIZES));
        speeds.checks.push(bench.check_speeds());
        bench.measure_kind(&mut speeds);
        if (rows, columns) == SIZE_OF_LENGTHS && !plan.lengths.is_empty() {
            bench.measure_lengths(plan.lengths, &mut speeds);
        }
    }
    for &(rows, columns) in plan.wide_sizes {
        let grid = grid::wide_heights(rows, columns);
        speeds.wide_sizes.push(grid_words(&grid));
        let bench = Bench::over(grid, plan, &folder);
        speeds.wide.push(bench.conversions(LENGTH_OF_SIZES));
    }
    speeds
}

/// PROJ's pipeline over the grid's files, which are written first.
fn opened(grid: &Grid, folder: &Folder) -> Pipeline {
    let (edition, size) = (grid.edition.word(), &grid.corrections);
    let heights = grid.heights.rows;
    let name = format!("{edition}-{}x{}-{heights}", size.rows, size.columns);
    let gsb = folder.0.join(format!("{name}.gsb"));
    let gtx = folder.0.join(format!("{name}.gtx"));
    proj_files::write_gsb(grid, &gsb).expect("the file of corrections");
    proj_files::write_gtx(grid, &gtx).expect("the file of heights");
    Pipeline::open(&gsb, &gtx)
}

/// A list call of an implementation.
fn list_work<'a>(
    implementation: Implementation,
    way: Way,
    image: &'a [u8],
    list: &'a [i64],
) -> Work<'a> {
    let mut answers = vec![0; list.len() / 3 * 5];
    Box::new(move || {
        implementation.list(way, black_box(image), black_box(list), &mut answers);
        black_box(&answers);
    })
}

/// The library's grid check and the i128 implementation's.
const CHECKS: [GridCheck; 2] = [library::grid_check, plain::grid_check];

/// A grid check of an image.
fn check_work(grid_check: GridCheck, image: &[u8]) -> Work<'_> {
    Box::new(move || {
        let mut findings = [0; 6];
        grid_check(black_box(image), &mut findings);
        black_box(&findings);
    })
}

impl Bench {
    fn over(grid: Grid, plan: &Plan, folder: &Folder) -> Bench {
        eprintln!("{}: grid of {}", plan.edition.words(), grid_words(&grid));
        Bench {
            pipeline: opened(&grid, folder),
            grid,
            repeats: plan.repeats,
        }
    }

    fn measure_lengths(&self, lengths: &[usize], speeds: &mut Speeds) {
        for length in lengths {
            eprintln!("list of {length}");
            speeds.by_length.push(self.conversions(*length));
        }
        let list = fixes::spread_over(&self.grid, LENGTH_OF_DISTANCE);
        speeds.distances = agreement::distances(&self.grid, &self.pipeline, &list);
    }

    /// What kinds 1 to 3 have of their own.
    fn measure_kind(&self, speeds: &mut Speeds) {
        let edition = self.grid.edition;
        if [Edition::First, Edition::Second].contains(&edition) {
            return;
        }
        let without = self.grid.image_of_kind_0();
        speeds.beside_kind_0.push(self.beside_kind_0(&without));
        if edition == Edition::SecondUnbounded {
            speeds.past_the_edge.push(self.past_the_edge());
        }
        if edition == Edition::SecondPlanes {
            let list = fixes::spread_over(&self.grid, LENGTH_OF_SIZES);
            agreement::require_kind_0(&self.grid, &without, &list);
            let checks = &mut speeds.checks_beside_kind_0;
            checks.push(self.checks_beside_kind_0(&without));
            let converters = &mut speeds.converters.by_size;
            converters.push(converter_speeds::measure(&self.grid, self.repeats));
        }
    }

    /// The conversions of a list of so many fixes.
    fn conversions(&self, length: usize) -> Conversions {
        let list = fixes::spread_over(&self.grid, length);
        agreement::require(&self.grid, &list);
        let mut answers = vec![0; 5 * length];
        let image = &self.grid.image;
        let number = Implementation::Library.list(Way::Out, image, &list, &mut answers);
        assert_eq!(number, 0);
        let counts: i64 = answers.chunks_exact(5).map(|answer| answer[3]).sum();
        Conversions {
            out: self.list_speeds(Way::Out, &list),
            back: self.list_speeds(Way::Back, &list),
            mean_count: counts as f64 / length as f64,
        }
    }

    fn list_speeds(&self, way: Way, list: &[i64]) -> Four {
        let count = list.len() / 3;
        let given = proj::positions(list);
        let mut positions = given.clone();
        let proj_work: Work = Box::new(move || {
            positions.copy_from_slice(&given);
            self.pipeline.convert(way, black_box(&mut positions));
        });
        let [library, plain, floating] = self.three_speeds(way, list);
        // By itself: a program runs slower right after PROJ.
        let [proj] = median_seconds(&mut [proj_work], self.repeats);
        [library, plain, floating, count as f64 / proj]
    }

    /// The speeds without PROJ's.
    fn three_speeds(&self, way: Way, list: &[i64]) -> [f64; 3] {
        let count = list.len() / 3;
        let mut works = Implementation::ALL.map(|it| list_work(it, way, &self.grid.image, list));
        let seconds = median_seconds(&mut works, self.repeats);
        seconds.map(|seconds| count as f64 / seconds)
    }

    /// The conversions of a list of which every other fix lies past the edge. That the library and
    /// the i128 implementation answer such fixes alike has been seen.
    fn past_the_edge(&self) -> PastTheEdge {
        let list = fixes::past_the_edge(&self.grid, LENGTH_OF_SIZES);
        PastTheEdge {
            out: self.three_speeds(Way::Out, &list),
            back: self.three_speeds(Way::Back, &list),
        }
    }

    /// The conversions over the grid's image of kind 0 and over its own.
    fn beside_kind_0(&self, without: &[u8]) -> BesideKind0 {
        let list = fixes::spread_over(&self.grid, LENGTH_OF_SIZES);
        let of_way = |way: Way| {
            let work = |it: &Implementation, image| list_work(*it, way, image, &list);
            let programs = [Implementation::Library, Implementation::Plain];
            self.beside(without, programs, work, LENGTH_OF_SIZES)
        };
        BesideKind0 {
            out: of_way(Way::Out),
            back: of_way(Way::Back),
        }
    }

    /// The same of the grid check.
    fn checks_beside_kind_0(&self, without: &[u8]) -> Beside {
        let work = |it: &GridCheck, image| check_work(*it, image);
        self.beside(without, CHECKS, work, self.grid.nodes())
    }

    /// The work of the library and of the i128 implementation, which is of so many parts, over the
    /// grid's image of kind 0 and over its own, in turn: parts per second.
    fn beside<'a, Program>(
        &'a self,
        without: &'a [u8],
        [library, plain]: [Program; 2],
        work: impl Fn(&Program, &'a [u8]) -> Work<'a>,
        parts: usize,
    ) -> Beside {
        let own = &self.grid.image;
        let mut works = [
            work(&library, without),
            work(&library, own),
            work(&plain, without),
            work(&plain, own),
        ];
        let seconds = median_seconds(&mut works, self.repeats);
        let [first, second, third, fourth] = seconds.map(|seconds| parts as f64 / seconds);
        Beside {
            library: [first, second],
            plain: [third, fourth],
        }
    }

    fn check_speeds(&self) -> [f64; 2] {
        let mut works = CHECKS.map(|it| check_work(it, &self.grid.image));
        let seconds = median_seconds(&mut works, self.repeats);
        seconds.map(|seconds| self.grid.nodes() as f64 / seconds)
    }
}
