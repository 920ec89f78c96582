//! The slips that only NTv2 files with a subgrid show, or those that might have one.

use super::Slip;
use compare::Part;

/// The slips: of PARENT, of the buffers, of the shifts, of the geometry, and of the order.
#[derive(Clone, Copy, PartialEq, Eq)]
pub enum SubgridSlip {
    /// None: the conversion is then another way to say the reference's.
    None,
    /// A file with two grids is refused.
    TwoGridsRefused,
    /// A file that says three grids is taken for one with so many.
    ThreeGridsTaken(i32),
    /// The PARENT of a grid is not asked.
    ParentNotAsked(Part),
    /// PARENT is asked only in a file with a subgrid.
    ParentOfTheOnlyGridNotAsked,
    /// The subgrid's PARENT is asked to be NONE, as the first grid's.
    ParentOfTheSubgridNone,
    /// The subgrid's PARENT is asked to be its own name.
    OwnNameForTheParents,
    /// The subgrid's PARENT may be NONE, too.
    NoneTakenForAName,
    /// Names are compared in their first seven bytes.
    SevenBytesOfANameAsked,
    /// Names are compared to their first space.
    NamesToTheirFirstSpace,
    /// Names are compared to their first zero byte, as C's texts are.
    NamesToTheirFirstZero,
    /// Small letters do for capital ones.
    NamesInAnyCase,
    /// END is taken wherever it stands between the two grids.
    EndBetweenTheGridsTaken,
    /// A second buffer for one grid is not asked to be empty.
    BufferForNoSubgridTaken,
    /// A second buffer longer than the subgrid's nodes is taken.
    LongerSecondBufferTaken,
    /// The subgrid's nodes go to the first buffer, the first grid's to the second.
    BuffersSwapped,
    /// The second buffer gets the first grid's nodes.
    NodesOfTheFirstGridTwice,
    /// The subgrid's rows are counted by the first grid's columns.
    RowsByTheFirstGridsColumns,
    /// The subgrid's shifts are not asked: an unfit one is 0.
    ShiftsNotAsked,
    /// The subgrid's shifts are asked, and the first grid's are not.
    ShiftsOfTheFirstGridNotAsked,
    /// 19 of the first grid comes before 18 of the subgrid.
    ShiftsBeforeTheSubgridsHeader,
    /// The first grid's nodes are written before the subgrid's shifts are asked.
    NodesWrittenBeforeTheSubgrids,
    /// The first grid's geometry is written before the subgrid's shifts are asked.
    GeometryWrittenBeforeTheSubgrids,
    /// The second buffer is cleared before the first question.
    SecondBufferCleared,
    /// The last six numbers are the first grid's geometry.
    GeometryOfTheFirstGridTwice,
    GeometriesSwapped,
    /// The last six numbers are unchanged for one grid.
    LastSixUnwritten,
    /// A subgrid that question 20 will refuse is refused with 18.
    MisalignedRefused,
}

impl From<SubgridSlip> for Slip {
    fn from(slip: SubgridSlip) -> Slip {
        Slip::Subgrid(slip)
    }
}
