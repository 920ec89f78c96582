//! The slips that only an image of kind 3 shows, one of kind 0 that is taken for it, or a conversion
//! of either into the other.

use super::Slip;
use compare::Stream;

/// The slips: of opening, of reading, of the conversions' questions, of the buffer, and of what is
/// written.
#[derive(Clone, Copy, PartialEq, Eq)]
pub enum PlanesSlip {
    /// None: the conversions are then another way to say the reference's.
    None,
    /// Kind 3 is a 2.
    KindThreeUnknown,
    /// Kind 3 is read as kind 0.
    KindThreeReadAsZero,
    /// Kind 3 answers past the edge, as kind 2 does.
    KindThreeUnbounded,
    /// Kind 0 is read as kind 3.
    KindZeroReadAsThree,
    /// Kind 4 is read as kind 3.
    KindFourTaken,
    /// The kind is cut to 8 bits.
    KindCutTo8Bits,
    /// Kind 3 is asked for the 36 bytes of kind 1.
    ThirtySixBytesAsked,
    /// The first plane is read as the longitude corrections.
    LongitudesReadFirst,
    /// The latitude corrections are read for the longitude corrections.
    LatitudesReadTwice,
    /// The longitude corrections are read from behind as many values as rows times rows.
    LongitudesByTheRows,
    /// The planes are read column by column.
    ColumnsRead,
    /// The planes are read from the northern row on.
    NorthernRowRead,
    /// 2 for another kind or edition comes before the image's number.
    KindFirst,
    /// 20 is not asked of kind 1, which gets its 2.
    TwentyNotAsked,
    /// An image of this kind is taken for one of the right kind.
    KindTaken(u32),
    /// An image that is in the arrangement already is taken, and copied.
    OwnKindTaken,
    /// Another kind or edition is a 14 where the buffer does not fit either.
    BufferBeforeTheKind,
    /// 14 comes before the image's number.
    BufferFirst,
    /// Unfit nodes are a 9.
    NineAsked,
    /// An image that does not pass the check gets its number.
    CheckAsked,
    /// A buffer with room for one byte more is taken.
    LongerBufferTaken,
    /// A buffer that is one byte too short is taken, and gets no last byte.
    ShorterBufferTaken,
    /// A buffer longer by the bytes before the first node is taken, and gets them too.
    BufferOfTheWholeImageTaken,
    /// The bytes before the first node are asked for in the buffer.
    BytesBeforeCounted,
    /// Any buffer with enough room is taken.
    LargeBufferTaken,
    /// The buffer is cleared before the questions.
    BufferCleared,
    /// The corrections are written before the buffer's length is asked.
    WrittenBeforeFourteen,
    /// One byte of the image is written.
    ImageWritten,
    /// The kind is changed in the image, too.
    KindWrittenInTheImage,
    /// The longitude corrections are written first.
    LongitudesWrittenFirst,
    /// The kind stays as it was.
    KindLeft,
    /// The heights are moved with the corrections, two for a node.
    HeightsMoved,
    /// Only the kind is changed.
    CorrectionsLeft,
    /// Rows and columns are exchanged.
    ColumnsWritten,
    /// The values are taken from the image's first byte on.
    FromTheFirstByte,
    /// The bytes of each correction are turned.
    BigEndianCorrections,
    /// The last latitude correction is not moved.
    LastLatitudeLeft,
    /// The heights are not written.
    HeightsUnwritten,
    /// The trailer is not written.
    TrailerUnwritten,
    /// The back to the corrections becomes that to the second plane.
    BackToTheLongitudes,
    /// The edition becomes the kind.
    KindInTheEdition,
}

impl PlanesSlip {
    /// The stream whose calls show it.
    pub fn stream(self) -> Stream {
        match self {
            PlanesSlip::KindZeroReadAsThree => Stream::EditionTwo,
            _ => Stream::KindThree,
        }
    }
}

impl From<PlanesSlip> for Slip {
    fn from(slip: PlanesSlip) -> Slip {
        Slip::Planes(slip)
    }
}
