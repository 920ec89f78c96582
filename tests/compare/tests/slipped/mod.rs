//! A converter that behaves as the reference but for one planted slip.

mod arranging;
mod dense;
mod dense_check;
mod dense_images;
mod dense_slip;
mod file_slip;
mod files;
mod floats;
mod heights;
mod images;
mod planes;
mod planes_slip;
mod sides;
mod slip;
mod subgrid_slip;
mod subgrids;
mod unbounded;
mod unbounded_check;
mod unbounded_slip;
mod ways;

use compare::{Converter, FileRoom, Format, Reference, Way};
use dense_images::lies_wrong;
pub use dense_slip::DenseSlip;
pub use file_slip::FileSlip;
pub use planes_slip::PlanesSlip;
use reference::{convert_list, Arrangement, Axis, Notation, Number};
pub use sides::Side;
pub use slip::{Slip, TwoGridSlip};
pub use subgrid_slip::SubgridSlip;
pub use unbounded_slip::UnboundedSlip;

pub struct Slipped(pub Slip);

impl Slipped {
    fn has(&self, slip: Slip) -> bool {
        self.0 == slip
    }

    fn has_two_grid(&self, slip: TwoGridSlip) -> bool {
        self.0 == Slip::TwoGrids(slip)
    }

    /// The image as the slip lets it look, or the number that the slip gives it at once.
    fn opened(&self, image: &[u8]) -> Result<Vec<u8>, Number> {
        let (number, seen) = match self.0 {
            Slip::TwoGrids(slip) => (slip.number_seen(image), slip.image_seen(image)),
            Slip::Dense(slip) => (slip.number_seen(image), slip.image_seen(image)),
            Slip::Unbounded(slip) => (slip.number_seen(image), slip.image_seen(image)),
            Slip::Planes(slip) => (slip.number_seen(image), slip.image_seen(image)),
            _ => (None, image.to_vec()),
        };
        number.map_or(Ok(seen), Err)
    }

    /// The same for a list, which has so many numbers.
    fn opened_for_list(
        &self,
        image: &[u8],
        fixes: usize,
        answers: usize,
    ) -> Result<Vec<u8>, Number> {
        let Slip::Dense(slip) = self.0 else {
            return self.opened(image);
        };
        let lengths_fit = fixes % 3 == 0 && 5 * fixes == 3 * answers;
        match slip {
            DenseSlip::TwentyAfterFourteen if lies_wrong(image) && !lengths_fit => Err(14),
            DenseSlip::TwentyInTheCheckAlone => Ok(DenseSlip::TwentyNotAsked.image_seen(image)),
            _ => self.opened(image),
        }
    }
}

impl Converter for Slipped {
    fn grid_check(&self, image: &mut [u8], findings: &mut [i64; 6]) -> Number {
        if self.has(Slip::ClearedFindings) {
            findings.fill(0);
        }
        let mut image = match self.opened(image) {
            Ok(image) => image,
            Err(number) => return number,
        };
        let number = match self.0 {
            Slip::TwoGrids(slip) => slip.grid_check(&mut image, findings),
            Slip::Dense(slip) => slip.grid_check(&mut image, findings),
            Slip::Unbounded(slip) => slip.grid_check(&mut image, findings),
            _ => Reference.grid_check(&mut image, findings),
        };
        if number == 0 && self.has(Slip::ConstantFindings) {
            *findings = [4, 0, 0, 0, 0, 5];
        }
        number
    }

    fn list(&self, way: Way, image: &mut [u8], fixes: &mut [i64], answers: &mut [i64]) -> Number {
        match self.0 {
            Slip::ClearedAnswers => answers.fill(0),
            Slip::ImageWritten => image.iter_mut().take(1).for_each(|byte| *byte ^= 1),
            Slip::FixWritten => fixes.iter_mut().take(1).for_each(|angle| *angle ^= 1),
            _ => {}
        }
        let opened = self.opened_for_list(image, fixes.len(), answers.len());
        let converted = opened.and_then(|image| {
            convert_list(&image, fixes, answers.len(), |image, fix| match way {
                Way::Out => self.way_out(image, fix),
                Way::Back => self.way_back(image, fix),
            })
        });
        match converted {
            Ok(values) => answers.copy_from_slice(&values),
            Err(number) => return number,
        }
        match self.0 {
            Slip::FirstAnswerCopied => {
                (5..answers.len()).for_each(|index| answers[index] = answers[index - 5]);
            }
            Slip::Unbounded(slip) => slip.mark(fixes, answers),
            _ => {}
        }
        0
    }

    fn read_notation(&self, axis: Axis, mut notation: Notation, nd: &mut i64) -> Number {
        let (_, negative) = axis.letters();
        if self.has(Slip::TotalCutTo64Bits) {
            notation.degrees %= 1 << 55;
        }
        let mut read = 0;
        let number = Reference.read_notation(axis, notation, &mut read);
        if self.has(Slip::NegativeZeroRefused) && read == 0 && notation.letter == negative {
            return 13;
        }
        if number == 0 || self.has(Slip::ClearedAngle) {
            *nd = read;
        }
        number
    }

    fn write_notation(&self, axis: Axis, nd: i64, notation: &mut [u64; 4]) -> Number {
        if self.has(Slip::ClearedNotation) {
            notation.fill(0);
        }
        let number = Reference.write_notation(axis, nd, notation);
        if number != 0 {
            return number;
        }
        let (positive, negative) = axis.letters();
        match self.0 {
            Slip::SecondsRoundedAfterTheSplit => {
                // A minute is 50,000,000 / 3 nd.
                let thirds = 3 * nd.unsigned_abs();
                let (minutes, rest) = (thirds / 50_000_000, thirds % 50_000_000);
                let seconds = (6 * rest + 25) / 50;
                *notation = [minutes / 60, minutes % 60, seconds, notation[3]];
            }
            Slip::NegativeZeroWritten if nd < 0 => notation[3] = negative.into(),
            Slip::OneTakenAsZero if notation[..3] == [0, 0, 1] => notation[3] = positive.into(),
            _ => {}
        }
        0
    }

    fn convert_file(&self, format: Format, file: &mut [u8], room: FileRoom) -> Number {
        match self.0 {
            Slip::Files(slip) => slip.convert(format, file, room),
            Slip::Subgrid(slip) => slip.convert(file, room),
            _ => Reference.convert_file(format, file, room),
        }
    }

    fn arrange(&self, arrangement: Arrangement, image: &mut [u8], buffer: &mut [u8]) -> Number {
        match self.0 {
            Slip::Planes(slip) => slip.arrange(arrangement, image, buffer),
            _ => Reference.arrange(arrangement, image, buffer),
        }
    }
}
