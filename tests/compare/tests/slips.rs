//! The comparison must be able to fail: it catches each planted slip within a few thousand calls,
//! and finds no difference where there is none.

/// A test by its name for each slip.
macro_rules! slips_are_caught {
    ($($name:ident: $slip:expr;)*) => {
        $(
            #[test]
            fn $name() {
                crate::caught($slip.into());
            }
        )*
    };
}

mod nested;
mod planted;
mod slipped;

use compare::{compare, Cause, Difference, Format, Stream};
use nested::{Fault, AXES};
use slipped::{
    DenseSlip, FileSlip, PlanesSlip, Slip, Slipped, SubgridSlip, TwoGridSlip, UnboundedSlip,
};

const SEED: u64 = 20_260_101;
const FEW_THOUSAND: u64 = 4_000;
const VDATUM: Stream = Stream::Files(Format::Vdatum);
const NTV2: Stream = Stream::Files(Format::Ntv2);

/// A converter with the slip differs over each of the streams whose calls show it.
fn caught(slip: Slip) {
    for stream in slip.streams() {
        caught_over(stream, slip);
    }
}

fn caught_over(stream: Stream, slip: Slip) -> Box<Difference> {
    caught_within(FEW_THOUSAND, stream, slip)
}

fn caught_within(calls: u64, stream: Stream, slip: Slip) -> Box<Difference> {
    let compared = compare(&Slipped(slip), stream, SEED, calls, |_| {});
    compared.expect_err("the slip is caught")
}

#[test]
fn a_converter_without_a_slip_has_no_difference() {
    for (stream, slip) in [
        (Stream::EditionOne, Slip::None),
        (Stream::EditionTwo, Slip::None),
        (Stream::KindOne, DenseSlip::None.into()),
        (Stream::KindTwo, Slip::None),
        (Stream::KindTwo, UnboundedSlip::None.into()),
        (Stream::KindThree, Slip::None),
        (Stream::KindThree, PlanesSlip::None.into()),
        (VDATUM, FileSlip::None.into()),
        (NTV2, FileSlip::None.into()),
        (NTV2, SubgridSlip::None.into()),
    ] {
        assert!(compare(&Slipped(slip), stream, SEED, 20_000, |_| {}).is_ok());
    }
}

#[test]
fn a_difference_is_told_with_a_case_to_replay() {
    let north_first = Slip::Files(FileSlip::NorthFirst);
    for (stream, slip, word) in [
        (Stream::EditionOne, Slip::HeightAtTheFix, "--edition 1"),
        (Stream::EditionTwo, Slip::HeightAtTheFix, "--edition 2"),
        (Stream::KindOne, Slip::HeightAtTheFix, "--kind 1"),
        (Stream::KindTwo, Slip::HeightAtTheFix, "--kind 2"),
        (Stream::KindThree, Slip::HeightAtTheFix, "--kind 3"),
        (VDATUM, north_first, "--files vdatum"),
        (NTV2, north_first, "--files ntv2"),
    ] {
        let difference = caught_over(stream, slip);
        let words = difference.to_string();
        let case = format!("{SEED}:{}", difference.case.index);
        let command = format!("compare {word} --replay {case}");
        assert!(words.contains(&command), "{words}");
        assert!(words.lines().count() < 80, "{words}");
    }
}

/// What the two editions share is caught over images of edition 2 too, whatever the kind.
#[test]
fn slips_of_either_edition_are_caught_over_edition_2() {
    for slip in [
        Slip::SingleSubtraction,
        Slip::NorthernBound(9),
        Slip::NorthernBound(8),
        Slip::RoundingTowardZero,
        Slip::FabricatedCount,
        Slip::ElevenAfter(4),
        Slip::ElevenAfter(6),
        Slip::CellOfP5AlwaysUsed,
        Slip::LastCellNotAsked,
        Slip::ConstantFindings,
        Slip::FirstAnswerCopied,
        Slip::ClearedAnswers,
        Slip::ClearedFindings,
        Slip::ImageWritten,
        Slip::FixWritten,
        Slip::SumCutTo64Bits,
    ] {
        caught_over(Stream::EditionTwo, slip);
        caught_over(Stream::KindOne, slip);
        caught_over(Stream::KindTwo, slip);
        caught_over(Stream::KindThree, slip);
    }
}

/// So are those of the heights on a grid of their own over images in planes.
#[test]
fn slips_of_two_grids_are_caught_over_kind_3() {
    for slip in [
        TwoGridSlip::KindNotAsked,
        TwoGridSlip::EightyBytesNotAsked,
        TwoGridSlip::HeightBackNotAsked,
        TwoGridSlip::HeightsInTheCorrectionCell,
        TwoGridSlip::HeightsByTheCorrectionPlace,
        TwoGridSlip::NearestHeight,
        TwoGridSlip::BoundsOfBothGrids,
        TwoGridSlip::FifteenBeforeNine,
        TwoGridSlip::LastCorrectionCellAsked,
        TwoGridSlip::SlopeByTheCorrectionSpacings,
        TwoGridSlip::SlopeBeforeHeights,
    ] {
        caught_over(Stream::KindThree, slip.into());
    }
}

/// Within a few calls, since most of them show these.
#[test]
fn slips_of_the_arrangement_itself_are_caught_at_once() {
    for slip in [
        PlanesSlip::LongitudesReadFirst,
        PlanesSlip::LongitudesWrittenFirst,
        PlanesSlip::KindLeft,
        PlanesSlip::HeightsMoved,
        PlanesSlip::BufferOfTheWholeImageTaken,
        PlanesSlip::KindThreeReadAsZero,
    ] {
        caught_within(200, Stream::KindThree, slip.into());
    }
}

/// Each way for a dense grid to lie wrong is enough for the comparison to see that it is not asked.
#[test]
fn every_fault_of_a_dense_grid_that_is_not_asked_is_caught() {
    for axis in AXES {
        for fault in Fault::ALL {
            caught(DenseSlip::FaultNotAsked(axis, fault).into());
        }
    }
}

/// Each cause of a file's refusals alone is enough for the comparison to see that it is not asked:
/// each of NTv2's labels, END among them, too. NTv2 files have 144 causes, so that it takes some
/// calls more.
#[test]
fn every_cause_that_is_not_asked_is_caught() {
    for format in Format::ALL {
        for cause in Cause::all(format) {
            let not_asked = FileSlip::NotAsked(cause).into();
            caught_within(5 * FEW_THOUSAND, Stream::Files(format), not_asked);
        }
    }
}
