//! The slips that can be planted.

use super::dense_slip::DenseSlip;
use super::file_slip::FileSlip;
use super::planes_slip::PlanesSlip;
use super::subgrid_slip::SubgridSlip;
use super::unbounded_slip::UnboundedSlip;
use compare::{Format, Stream};
use reference::Number;

/// The slips: first those of document 01's "Slips seen in the bought code", in its order.
#[derive(Clone, Copy, PartialEq, Eq)]
pub enum Slip {
    /// None: this converter is then another way to say the reference.
    None,
    /// "Corrections looked up at the ETRS89 point and subtracted a single time".
    SingleSubtraction,
    /// "The northern bound sent to a cell that doesn't exist, or refused": the number that the
    /// fix gets, 9 for the trailer's bytes read as nodes, or 8.
    NorthernBound(Number),
    /// "Rounding toward zero for negative corrections: −100.7 becomes −100."
    RoundingTowardZero,
    /// "Quasi-geoid height taken at p and not at pn".
    HeightAtTheFix,
    /// "Seconds rounded after the split, giving 60.00000."
    SecondsRoundedAfterTheSplit,
    /// The way out always says 2 evaluations.
    FabricatedCount,
    /// 11 is given after so many evaluations, not five.
    ElevenAfter(usize),
    /// The stop test comes before question 10.
    StopTestBeforeTheBounds,
    /// The cell of p5 is asked for although the stop rule does not hold there.
    CellOfP5AlwaysUsed,
    /// Question 9 is not put for the cell of pn.
    LastCellNotAsked,
    /// The findings are always those of grid G.
    ConstantFindings,
    /// Every answer of a list is the first one.
    FirstAnswerCopied,
    /// The answer list is cleared before the questions.
    ClearedAnswers,
    /// The findings are cleared before the questions.
    ClearedFindings,
    /// The angle is cleared before question 13.
    ClearedAngle,
    /// The notation is cleared before question 13.
    ClearedNotation,
    /// One byte of the image is written.
    ImageWritten,
    /// One fix is written.
    FixWritten,
    /// The sum of corner times weight is cut to 64 bits.
    SumCutTo64Bits,
    /// An exact half below zero goes away from zero.
    HalfBelowZeroAway,
    /// More than half below zero is not rounded.
    AboveHalfBelowZeroKept,
    /// The remainder is compared with half of P × Q, rounded down.
    HalfOfTheAreaRoundedDown,
    /// The degrees' total is cut to 64 bits.
    TotalCutTo64Bits,
    /// Zero with S or W is refused.
    NegativeZeroRefused,
    /// The letter that is written follows the sign, that of −1 nd too.
    NegativeZeroWritten,
    /// The letter of a total of 1 is that of zero.
    OneTakenAsZero,
    /// In edition 2.
    TwoGrids(TwoGridSlip),
    /// With a dense grid.
    Dense(DenseSlip),
    /// Past the edge.
    Unbounded(UnboundedSlip),
    /// In planes, and in the conversions into them and back.
    Planes(PlanesSlip),
    /// In the conversion of a file.
    Files(FileSlip),
    /// In that of an NTv2 file that has a subgrid, or might have one.
    Subgrid(SubgridSlip),
}

impl Slip {
    /// The streams whose calls show it.
    pub fn streams(self) -> Vec<Stream> {
        match self {
            Slip::TwoGrids(_) => vec![Stream::EditionTwo],
            Slip::Dense(DenseSlip::StopAt3Without) => {
                vec![Stream::EditionOne, Stream::EditionTwo]
            }
            Slip::Dense(_) => vec![Stream::KindOne],
            Slip::Unbounded(slip) => vec![slip.stream()],
            Slip::Planes(slip) => vec![slip.stream()],
            Slip::Files(slip) => slip.formats().iter().map(|it| Stream::Files(*it)).collect(),
            Slip::Subgrid(_) => vec![Stream::Files(Format::Ntv2)],
            _ => vec![Stream::EditionOne],
        }
    }
}

/// The slips that only an image of edition 2 shows.
#[derive(Clone, Copy, PartialEq, Eq)]
pub enum TwoGridSlip {
    /// The kind is not asked.
    KindNotAsked,
    /// An image of 40 to 79 bytes is taken for one with zeros before it.
    EightyBytesNotAsked,
    /// 80 bytes are asked for whatever the edition, unless it is 1.
    EightyBytesBeforeTheEdition,
    /// Questions 3 to 5 are put to the correction grid, then to the height grid.
    OneGridAfterTheOther,
    /// Any back to the height nodes does.
    HeightBackNotAsked,
    /// Heights are looked up in the row and column of the correction grid's cell.
    HeightsInTheCorrectionCell,
    /// Heights are weighed with the point's place in the correction grid's cell.
    HeightsByTheCorrectionPlace,
    /// The quasi-geoid height off the height grid is that of the nearest point on it.
    NearestHeight,
    /// The northern and the eastern bound of the height grid are off it.
    FarHeightBoundsRefused,
    /// Question 8 asks for both grids.
    BoundsOfBothGrids,
    /// 15 comes before 9 going back.
    FifteenBeforeNine,
    /// 15 comes before 11.
    FifteenBeforeEleven,
    /// 15 is put to every pk.
    FifteenAtEveryStep,
    /// Question 9 asks for the heights at every point at which corrections are looked up.
    HeightsOfEveryCellAsked,
    /// Question 9 asks the correction cell of pn.
    LastCorrectionCellAsked,
    /// Question 9 lets heights be as large as corrections.
    HeightsByTheCorrectionLimit,
    /// Question 12 takes the correction spacings for heights.
    SlopeByTheCorrectionSpacings,
    /// Question 12 for corrections comes before question 9 for heights.
    SlopeBeforeHeights,
}

impl From<TwoGridSlip> for Slip {
    fn from(slip: TwoGridSlip) -> Slip {
        Slip::TwoGrids(slip)
    }
}
