//! The made-up files of both formats: fit ones, with nodes that are unfit, with broken headers, and
//! with lengths of file and buffer that do not suit.

mod angles;
mod damage;
mod made;
mod ntv2;
mod values;
mod vdatum;

use crate::random::Random;
use crate::{Call, File, Format};
use made::Made;

/// Among so many cases stands one with a large grid: of VDatum the largest that a file can have.
const LARGE_FILE_EVERY: u64 = 200_000;

/// Is the case of this index the one with a large grid?
pub fn has_large_file(index: u64) -> bool {
    index % LARGE_FILE_EVERY == LARGE_FILE_EVERY / 2
}

/// The call of one case.
pub fn call(format: Format, seed: u64, index: u64) -> Call {
    // The seed is turned so that no case repeats the numbers of another stream's case.
    let turn = match format {
        Format::Vdatum => 1 << 63,
        Format::Ntv2 => 1 << 62,
    };
    let random = &mut Random::for_case(seed ^ turn, index);
    Call::ConvertFile(match (format, has_large_file(index)) {
        (Format::Vdatum, true) => vdatum::largest(random).exact(),
        (Format::Vdatum, false) => {
            let made = vdatum::fit(random);
            any_file(random, made, [48, 60, 78, 87, 90, 92])
        }
        (Format::Ntv2, true) => ntv2::large(random).exact(),
        (Format::Ntv2, false) => {
            let made = ntv2::fit(random);
            any_file(random, made, [30, 39, 74, 81, 83, 84])
        }
    })
}

/// A file made in one of several ways. Of a hundred cases those below the first number are fit;
/// below the next have unfit nodes, broken headers, other lengths, parts of a file, random bytes;
/// and the rest have several of these at once.
fn any_file(random: &mut Random, mut made: impl Made, shares: [u64; 6]) -> File {
    let drawn = random.below(100);
    match shares.iter().position(|share| drawn < *share) {
        Some(0) => made.exact(),
        Some(1) => {
            made.spoil(random);
            made.exact()
        }
        Some(2) => {
            made.break_headers(random);
            made.exact()
        }
        Some(3) => damage::with_other_lengths(random, &made.exact()),
        Some(4) => damage::truncated_file(random, &made.exact()),
        Some(_) => damage::random_file(random, made.exact().format),
        None => several_at_once(random, made),
    }
}

/// Broken headers, unfit nodes and other lengths in one file, or two of these.
fn several_at_once(random: &mut Random, mut made: impl Made) -> File {
    let (headers, nodes, lengths) = random.pick(&[
        (true, true, false),
        (true, true, false),
        (true, false, true),
        (false, true, true),
        (true, true, true),
    ]);
    if headers {
        made.break_headers(random);
    }
    if nodes {
        made.spoil(random);
    }
    let file = made.exact();
    if lengths {
        return damage::with_other_lengths(random, &file);
    }
    file
}
