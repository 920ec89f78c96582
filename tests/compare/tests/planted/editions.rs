//! The slips of either edition, and those that only edition 2 shows.

use crate::slipped::{Slip, TwoGridSlip};

slips_are_caught! {
    slip_single_subtraction_at_the_etrs89_point_is_caught: Slip::SingleSubtraction;
    slip_northern_bound_sent_to_a_missing_cell_is_caught: Slip::NorthernBound(9);
    slip_northern_bound_refused_is_caught: Slip::NorthernBound(8);
    slip_rounding_toward_zero_is_caught: Slip::RoundingTowardZero;
    slip_height_taken_at_the_fix_is_caught: Slip::HeightAtTheFix;
    slip_seconds_rounded_after_the_split_is_caught: Slip::SecondsRoundedAfterTheSplit;
    fabricated_count_is_caught: Slip::FabricatedCount;
    number_11_after_four_evaluations_is_caught: Slip::ElevenAfter(4);
    number_11_after_six_evaluations_is_caught: Slip::ElevenAfter(6);
    stop_test_before_question_10_is_caught: Slip::StopTestBeforeTheBounds;
    use_of_the_cell_of_p5_without_a_stop_is_caught: Slip::CellOfP5AlwaysUsed;
    last_cell_not_asked_is_caught: Slip::LastCellNotAsked;
    constant_findings_are_caught: Slip::ConstantFindings;
    first_answer_copied_is_caught: Slip::FirstAnswerCopied;
    answers_cleared_before_a_refusal_are_caught: Slip::ClearedAnswers;
    findings_cleared_before_a_refusal_are_caught: Slip::ClearedFindings;
    angle_cleared_before_a_refusal_is_caught: Slip::ClearedAngle;
    notation_cleared_before_a_refusal_is_caught: Slip::ClearedNotation;
    write_to_the_image_is_caught: Slip::ImageWritten;
    write_to_the_fixes_is_caught: Slip::FixWritten;
    sum_of_corner_times_weight_cut_to_64_bits_is_caught: Slip::SumCutTo64Bits;
    half_below_zero_away_from_zero_is_caught: Slip::HalfBelowZeroAway;
    above_half_below_zero_not_rounded_is_caught: Slip::AboveHalfBelowZeroKept;
    half_of_an_odd_area_rounded_down_is_caught: Slip::HalfOfTheAreaRoundedDown;
    degrees_cut_to_64_bits_are_caught: Slip::TotalCutTo64Bits;
    zero_with_south_or_west_refused_is_caught: Slip::NegativeZeroRefused;
    zero_written_with_south_or_west_is_caught: Slip::NegativeZeroWritten;
    total_of_1_taken_as_zero_is_caught: Slip::OneTakenAsZero;
    kind_not_asked_is_caught: TwoGridSlip::KindNotAsked;
    eighty_bytes_not_asked_are_caught: TwoGridSlip::EightyBytesNotAsked;
    eighty_bytes_before_the_edition_are_caught: TwoGridSlip::EightyBytesBeforeTheEdition;
    one_grid_after_the_other_is_caught: TwoGridSlip::OneGridAfterTheOther;
    height_back_not_asked_is_caught: TwoGridSlip::HeightBackNotAsked;
    heights_in_the_correction_cell_are_caught: TwoGridSlip::HeightsInTheCorrectionCell;
    heights_by_the_correction_place_are_caught: TwoGridSlip::HeightsByTheCorrectionPlace;
    nearest_height_off_the_height_grid_is_caught: TwoGridSlip::NearestHeight;
    far_height_bounds_refused_are_caught: TwoGridSlip::FarHeightBoundsRefused;
    bounds_of_both_grids_are_caught: TwoGridSlip::BoundsOfBothGrids;
    number_15_before_9_is_caught: TwoGridSlip::FifteenBeforeNine;
    number_15_before_11_is_caught: TwoGridSlip::FifteenBeforeEleven;
    number_15_at_every_step_is_caught: TwoGridSlip::FifteenAtEveryStep;
    heights_of_every_cell_asked_are_caught: TwoGridSlip::HeightsOfEveryCellAsked;
    correction_cell_of_pn_asked_is_caught: TwoGridSlip::LastCorrectionCellAsked;
    heights_by_the_correction_limit_are_caught: TwoGridSlip::HeightsByTheCorrectionLimit;
    height_slope_by_the_correction_spacings_is_caught: TwoGridSlip::SlopeByTheCorrectionSpacings;
    slope_of_corrections_before_heights_is_caught: TwoGridSlip::SlopeBeforeHeights;
}
