//! The slips that only an image of kind 1 shows.

use super::{Side, Slip};
use crate::nested::Fault;
use reference::Number;

/// The slips: of opening, of 20, of the lookup, of the stop rule, and of the check.
#[derive(Clone, Copy, PartialEq, Eq)]
pub enum DenseSlip {
    /// None: the opening, the lookup and the check are then another way to say the reference's.
    None,
    /// Kind 1 is a 2.
    KindOneUnknown,
    /// Kind 2 is taken for kind 1.
    KindTwoTaken,
    /// Kind 1 is taken for kind 0.
    DenseGridUnread,
    /// A length below 36 plus the correction nodes' back is not asked: such a back is a 6.
    ThirtySixBytesNotAsked,
    /// It is asked before the kind.
    ThirtySixBytesBeforeTheKind,
    /// The sum of 36 and the back is cut to 32 bits.
    ThirtySixBytesCutTo32Bits,
    /// The 36 bytes are found by what the back should be, and not as the trailer has it.
    ThirtySixBytesByTheRightBack,
    /// Questions 3 to 6 are put to the other grids, then to the dense one.
    DenseGridAfterTheOthers,
    /// Questions 3 to 5 are put to the dense grid, then to the others.
    DenseGridBeforeTheOthers,
    /// One of questions 3 to 5 is not put to the dense grid: 6 then has the answer no.
    QuestionNotPut(Number),
    /// Any back to the dense nodes does.
    DenseBackNotAsked,
    /// The dense back counts from the correction nodes.
    DenseBackFromTheCorrections,
    /// The dense back counts from the image's beginning.
    DenseBackFromTheBeginning,
    /// The dense back leaves out the 36 bytes.
    DenseBackWithoutThe36,
    /// The dense nodes are taken from the image's beginning, whatever stands before them.
    DenseNodesFromTheBeginning,
    /// 20 is not asked: a dense grid that lies wrong is not used.
    TwentyNotAsked,
    /// One cause of 20, along an axis, is not asked.
    FaultNotAsked(usize, Fault),
    /// 20 comes after 14.
    TwentyAfterFourteen,
    /// 20 is asked in the check alone.
    TwentyInTheCheckAlone,
    /// 20 comes before 6.
    TwentyBeforeSix,
    /// The parent is used on a dense bound.
    ParentOn(Side),
    /// The dense nodes are used 1 nd outside of a dense bound too.
    DenseNodesBeside(Side),
    /// The parent is used where a dense cell is the last one before the northern bound.
    LastDenseCellMissing,
    /// Question 9 asks the parent's cell beside the dense one.
    ParentAskedToo,
    /// Question 9 asks the parent's cell in place of the dense one.
    ParentAskedInstead,
    /// Question 9 does not ask this correction of a dense cell.
    DenseCorrectionUnasked(usize),
    /// Going out, the dense grid is used only for a fix in its bounds.
    GridByTheFix,
    /// Going out, a coarse cell is used again for a next point that lies on its side.
    CoarseCellKept,
    /// Question 10 takes the dense bounds for a fix in them.
    DenseBoundsForTen,
    /// The stop rule uses this distance with a dense grid.
    StopAt(i128),
    /// The stop rule uses 3 nd without a dense grid.
    StopAt3Without,
    /// The stop rule uses 3 nd only for a next point in the dense bounds.
    StopByThePoint,
    /// The stop rule uses 3 nd only in this angle.
    StopInOneAngle(usize),
    /// The check does not ask the dense nodes question 9.
    NineNotAsked,
    /// The check asks the dense nodes question 9 after question 12 for the others.
    NineAfterTwelve,
    /// The check does not ask the dense slopes.
    SlopeNotAsked,
    /// The check takes the coarse spacings for the dense slopes.
    SlopeByTheCoarseSpacings,
    /// 21 comes before 12.
    TwentyOneBeforeTwelve,
    /// 21 comes before 12 for the dense grid.
    TwentyOneBeforeTheDenseSlope,
    /// 21 is not asked.
    TwentyOneNotAsked,
    /// 21 is set beside the rounded value.
    BorderBesideTheRoundedValue,
    /// 21 lets this difference pass.
    BorderWithin(i128),
    /// 21 does not ask the corner nodes.
    CornersNotAsked,
    /// 21 does not ask a side, its corners aside.
    SideNotAsked(Side),
    /// 21 does not ask this correction.
    CorrectionNotAsked(usize),
    /// 21 asks only where a coarse node stands.
    CoarseNodesAlone,
    /// 21 asks the nodes inside the border too.
    InnerNodesAsked,
    /// A and B are the dense grid's.
    DenseFindings,
    /// A and B are the larger of both grids'.
    LargerFindings,
}

impl From<DenseSlip> for Slip {
    fn from(slip: DenseSlip) -> Slip {
        Slip::Dense(slip)
    }
}
