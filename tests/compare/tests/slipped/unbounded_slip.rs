//! The slips that only an image of kind 2 shows, or one of kind 0 that is taken for it.

use super::{Side, Slip};
use compare::Stream;
use reference::Number;

/// The slips: of opening, of kind 0, of the questions and points of a way, of the corrections, of
/// the heights, of the mark, and of the check.
#[derive(Clone, Copy, PartialEq, Eq)]
pub enum UnboundedSlip {
    /// None: the ways and the check are then another way to say the reference's.
    None,
    /// Kind 2 is a 2.
    KindTwoUnknown,
    /// Kind 2 is taken for kind 0.
    KindTwoTakenForZero,
    /// Kind 3 is taken for kind 2.
    KindThreeTaken,
    /// The kind is cut to 8 bits.
    KindCutTo8Bits,
    /// Kind 2 is asked for the 36 bytes of kind 1.
    ThirtySixBytesAsked,
    /// In kind 0 too the correction is zero outside.
    ZeroOutsideOfKindZero,
    /// In kind 0 too a point off the height grid has no height.
    NoHeightInKindZero,
    /// 22 is asked of kind 0 too.
    BorderOfKindZeroAsked,
    /// Question 8, 10 or 15 is put.
    QuestionPut(Number),
    /// 15 is put going back.
    FifteenGoingBack,
    /// Question 7 is not put to the angles.
    AnglesNotAsked,
    /// 10 is given for a point past 90 or 180 degrees.
    TenAtTheLimits,
    /// Points past 90 or 180 degrees are put back to these.
    CutToTheLimits,
    /// Longitudes past 180 degrees are turned by 360.
    TurnedAt180,
    /// The stop rule uses this distance.
    StopAt(i128),
    /// A point on a bound of the corrections is outside.
    OutsideOn(Side),
    /// A point 1 nd past a bound of the corrections is not outside yet.
    InsideBeside(Side),
    /// Outside the corrections are those of the nearest point on the grid.
    NearestOutside,
    /// Outside only the correction of an angle that is past a bound is zero.
    ZeroInOneAngle,
    /// Question 9 asks the nearest cell outside.
    NearestCellAsked,
    /// Going out, a point outside keeps the corrections of the one before it.
    CorrectionsKept,
    /// A point on a bound of the height grid is off it.
    OffOn(Side),
    /// A point 1 nd past a bound of the height grid is not off it yet.
    OnBeside(Side),
    /// Off the height grid the height is that of the nearest point on it.
    NearestHeight,
    /// Question 9 asks the nearest height cell off the height grid.
    NearestHeightCellAsked,
    /// Outside the corrections there is no height.
    NoHeightOutside,
    /// Going out, a fix off the height grid has no height.
    HeightByTheFix,
    /// 100 stands with the given height.
    HeightLeftIn,
    /// An answer without a height has the number 0.
    MarkLeftOut,
    /// 100 stands after four zeros, as a refusal does.
    MarkAlone,
    /// 100 stands after the count 0.
    CountLeftOut,
    /// 22 is not asked.
    BorderNotAsked,
    /// 22 does not ask a side, its corners aside.
    SideNotAsked(Side),
    /// 22 does not ask the corner nodes.
    CornersNotAsked,
    /// 22 does not ask this correction.
    CorrectionNotAsked(usize),
    /// 22 asks the nodes inside the border too.
    InnerNodesAsked,
    /// 22 lets a correction of 1 nd pass.
    BorderWithin1,
    /// 22 asks the border of the height grid too.
    HeightBorderAsked,
    /// 22 comes after 12.
    BorderAfterTwelve,
    /// 22 comes before question 9 for heights.
    BorderBeforeHeights,
    /// 22 comes before question 9.
    BorderBeforeNine,
}

impl UnboundedSlip {
    /// The stream whose calls show it.
    pub fn stream(self) -> Stream {
        match self {
            UnboundedSlip::ZeroOutsideOfKindZero
            | UnboundedSlip::NoHeightInKindZero
            | UnboundedSlip::BorderOfKindZeroAsked => Stream::EditionTwo,
            _ => Stream::KindTwo,
        }
    }
}

impl From<UnboundedSlip> for Slip {
    fn from(slip: UnboundedSlip) -> Slip {
        Slip::Unbounded(slip)
    }
}
