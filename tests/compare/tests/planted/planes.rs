//! The slips of kind 3, and of the conversions into it and back.

use crate::slipped::PlanesSlip;

slips_are_caught! {
    kind_3_unknown_is_caught: PlanesSlip::KindThreeUnknown;
    kind_3_read_as_kind_0_is_caught: PlanesSlip::KindThreeReadAsZero;
    kind_3_answering_past_the_edge_is_caught: PlanesSlip::KindThreeUnbounded;
    kind_0_read_as_kind_3_is_caught: PlanesSlip::KindZeroReadAsThree;
    kind_4_taken_for_kind_3_is_caught: PlanesSlip::KindFourTaken;
    kind_3_cut_to_8_bits_is_caught: PlanesSlip::KindCutTo8Bits;
    kind_3_asked_for_36_bytes_is_caught: PlanesSlip::ThirtySixBytesAsked;
    longitudes_read_first_are_caught: PlanesSlip::LongitudesReadFirst;
    latitudes_read_twice_are_caught: PlanesSlip::LatitudesReadTwice;
    longitudes_by_the_rows_alone_are_caught: PlanesSlip::LongitudesByTheRows;
    planes_read_by_columns_are_caught: PlanesSlip::ColumnsRead;
    planes_read_from_the_north_are_caught: PlanesSlip::NorthernRowRead;
    number_2_before_the_images_number_is_caught: PlanesSlip::KindFirst;
    number_20_not_asked_before_2_is_caught: PlanesSlip::TwentyNotAsked;
    kind_1_converted_is_caught: PlanesSlip::KindTaken(1);
    kind_2_converted_is_caught: PlanesSlip::KindTaken(2);
    image_of_its_own_kind_converted_is_caught: PlanesSlip::OwnKindTaken;
    number_14_before_2_is_caught: PlanesSlip::BufferBeforeTheKind;
    number_14_before_the_images_number_is_caught: PlanesSlip::BufferFirst;
    number_9_of_a_conversion_is_caught: PlanesSlip::NineAsked;
    number_of_the_check_of_a_conversion_is_caught: PlanesSlip::CheckAsked;
    buffer_of_a_byte_more_taken_is_caught: PlanesSlip::LongerBufferTaken;
    buffer_of_a_byte_less_taken_is_caught: PlanesSlip::ShorterBufferTaken;
    buffer_of_the_whole_image_taken_is_caught: PlanesSlip::BufferOfTheWholeImageTaken;
    bytes_before_the_first_node_counted_are_caught: PlanesSlip::BytesBeforeCounted;
    buffer_with_more_room_taken_is_caught: PlanesSlip::LargeBufferTaken;
    buffer_cleared_before_a_refusal_is_caught: PlanesSlip::BufferCleared;
    buffer_written_before_a_14_is_caught: PlanesSlip::WrittenBeforeFourteen;
    write_to_a_converted_image_is_caught: PlanesSlip::ImageWritten;
    kind_written_in_the_converted_image_is_caught: PlanesSlip::KindWrittenInTheImage;
    longitudes_written_first_are_caught: PlanesSlip::LongitudesWrittenFirst;
    kind_left_as_it_was_is_caught: PlanesSlip::KindLeft;
    heights_moved_with_the_corrections_are_caught: PlanesSlip::HeightsMoved;
    corrections_left_as_they_were_are_caught: PlanesSlip::CorrectionsLeft;
    rows_and_columns_exchanged_are_caught: PlanesSlip::ColumnsWritten;
    conversion_from_the_first_byte_on_is_caught: PlanesSlip::FromTheFirstByte;
    corrections_with_their_bytes_turned_are_caught: PlanesSlip::BigEndianCorrections;
    last_latitude_left_is_caught: PlanesSlip::LastLatitudeLeft;
    heights_unwritten_are_caught: PlanesSlip::HeightsUnwritten;
    trailer_unwritten_is_caught: PlanesSlip::TrailerUnwritten;
    back_to_the_longitudes_is_caught: PlanesSlip::BackToTheLongitudes;
    kind_in_the_edition_is_caught: PlanesSlip::KindInTheEdition;
}
