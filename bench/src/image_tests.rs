//! That an image which examples/image.c makes of a .gsb and a .gtx file answers as PROJ does over the
//! same files, and that one with a wrong sign or order would be found out. It is the way back that
//! is compared: both evaluate the grids once there, at the given point.

use crate::agreement::{self, Distance};
use crate::proj::{self, Pipeline, Position};
use crate::temporary::Folder;
use bench::grid::{self, Edition, Geometry, CORRECTION_SPACINGS};
use bench::{fixes, gsb, gtx, Implementation, Way};
use std::fs;
use std::path::{Path, PathBuf};
use std::process::Command;
use std::sync::OnceLock;

/// How far the two may lie apart, in nd and units: half for a node that is rounded, half for the
/// value in a cell.
const ALLOWED: f64 = 1.0;

/// Fixes between nodes.
const BETWEEN_NODES: usize = 1_000;

/// An image, its corrections' geometry, fixes, and PROJ's positions for them.
struct Trial {
    image: Vec<u8>,
    geometry: Geometry,
    fixes: Vec<i64>,
    positions: Vec<Position>,
}

/// The corrections of the node of a row and a column.
type Corrections<'a> = &'a dyn Fn(u32, u32) -> [i32; 2];

/// What a wrong program puts at a row and a column.
type Slip = fn(&Geometry, Corrections, u32, u32) -> [i32; 2];

/// One trial for each geometry. They are made once, since PROJ's context is not for several threads.
fn trials() -> &'static [Trial] {
    static TRIALS: OnceLock<Vec<Trial>> = OnceLock::new();
    TRIALS.get_or_init(|| {
        let folder = Folder::new();
        let program = built(&folder.0);
        let geometries = geometries().into_iter().enumerate();
        let trial = |(index, geometry)| Trial::new(&program, &folder.0, index, geometry);
        geometries.map(trial).collect()
    })
}

/// North and east of zero, south and west of it, and across both the equator and Greenwich.
fn geometries() -> [Geometry; 3] {
    let from = |south, west, rows, columns| Geometry {
        south,
        west,
        ..Geometry::from_zero(CORRECTION_SPACINGS, rows, columns)
    };
    [
        from(52_000_000_000, 5_000_000_000, 7, 5),
        from(-33_900_000_000, -70_650_000_000, 5, 9),
        from(-25_000_000, -60_000_000, 5, 7),
    ]
}

/// The program image, built as the gate builds it.
fn built(folder: &Path) -> PathBuf {
    let root = Path::new(env!("CARGO_MANIFEST_DIR")).join("..");
    let program = folder.join("image");
    let status = Command::new(root.join("tests/build"))
        .arg(root.join("examples/image.c"))
        .arg(&program)
        .status();
    assert!(status.expect("tests/build runs").success());
    program
}

impl Trial {
    /// The image of made-up files, and what PROJ gives over them at each node and between nodes.
    fn new(program: &Path, folder: &Path, index: usize, geometry: Geometry) -> Trial {
        let [gsb, gtx, image] =
            ["gsb", "gtx", "image"].map(|it| folder.join(format!("{index}.{it}")));
        let heights = grid::own_heights(Edition::Second, &geometry).expect("heights");
        fs::write(&gsb, gsb::bytes(&geometry, shifts)).expect("the file of corrections");
        fs::write(&gtx, gtx::bytes(&heights, metres)).expect("the file of heights");
        let status = Command::new(program).args([&gsb, &gtx, &image]).status();
        assert!(status.expect("image runs").success());
        let mut fixes = fixes::spread(&geometry, BETWEEN_NODES);
        fixes.extend(at_nodes(&geometry));
        let mut positions = proj::positions(&fixes);
        Pipeline::open(&gsb, &gtx).convert(Way::Back, &mut positions);
        Trial {
            image: fs::read(image).expect("the image"),
            geometry,
            fixes,
            positions,
        }
    }

    /// How far PROJ's answers lie from those over an image.
    fn distance(&self, image: &[u8]) -> Distance {
        let library = Implementation::Library;
        let answers = agreement::list_of(library, Way::Back, image, &self.fixes);
        let mut distance = Distance::default();
        distance.widen(&answers, self.positions.iter().map(proj::in_units));
        distance
    }

    /// The image with the corrections of a wrong program. Its correction nodes are its first bytes.
    fn slipped(&self, slip: Slip) -> Vec<u8> {
        let geometry = &self.geometry;
        let at = |row: u32, column: u32| 8 * (row * geometry.columns + column) as usize;
        let number =
            |at: usize| i32::from_le_bytes(self.image[at..at + 4].try_into().expect("four bytes"));
        let corrections = |row: u32, column: u32| [0, 4].map(|it| number(at(row, column) + it));
        let mut image = self.image.clone();
        for (row, column) in geometry.places() {
            let wrong = slip(geometry, &corrections, row, column);
            let bytes = wrong.map(i32::to_le_bytes).concat();
            image[at(row, column)..][..8].copy_from_slice(&bytes);
        }
        image
    }
}

/// A number from -10,000 to 10,000 for a place, without a pattern.
fn uneven(row: u32, column: u32, value: u64) -> f32 {
    let place = u64::from(row) << 32 | u64::from(column) << 8 | value;
    (fixes::mixed(place) % 20_001) as f32 - 10_000.0
}

/// Shifts of less than 0.01 seconds of arc, some 2,650 nd, which an f32 holds exactly. PROJ turns
/// them into radians of 32 bits, which moves so small a shift by less than 0.001 nd.
fn shifts(row: u32, column: u32) -> [f32; 2] {
    [0, 1].map(|value| uneven(row, column, value) / 1_048_576.0)
}

/// Heights from 38 to 48 m, which an f32 holds exactly.
fn metres(row: u32, column: u32) -> f32 {
    43.0 + uneven(row, column, 2) / 16_384.0
}

/// A fix at each node.
fn at_nodes(geometry: &Geometry) -> Vec<i64> {
    let angles = |row: u32, column: u32| {
        let north = i64::from(row) * i64::from(geometry.latitude_spacing);
        let east = i64::from(column) * i64::from(geometry.longitude_spacing);
        [geometry.south + north, geometry.west + east, 0]
    };
    let places = geometry.places();
    places
        .flat_map(|(row, column)| angles(row, column))
        .collect()
}

#[test]
fn images_answer_as_proj_does() {
    for trial in trials() {
        let Distance { angle, height } = trial.distance(&trial.image);
        println!("{:?}: {angle:.3} nd, {height:.3} units", trial.geometry);
        assert!(angle <= ALLOWED && height <= ALLOWED);
    }
}

#[test]
fn wrong_signs_and_orders_are_found_out() {
    let slips: [Slip; 5] = [
        |_, corrections, row, column| {
            let [latitude, longitude] = corrections(row, column);
            [latitude, -longitude]
        },
        |_, corrections, row, column| {
            let [latitude, longitude] = corrections(row, column);
            [-latitude, longitude]
        },
        |_, corrections, row, column| {
            let [latitude, longitude] = corrections(row, column);
            [longitude, latitude]
        },
        |geometry, corrections, row, column| corrections(row, geometry.columns - 1 - column),
        |geometry, corrections, row, column| corrections(geometry.rows - 1 - row, column),
    ];
    for trial in trials() {
        for slip in slips {
            let distance = trial.distance(&trial.slipped(slip));
            assert!(distance.angle > ALLOWED, "a slip is not seen");
        }
    }
}
