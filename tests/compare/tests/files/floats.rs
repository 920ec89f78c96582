//! The floats of the made-up files that are converted.

use super::{files, fit_angles, fit_files, values_of};
use compare::Format;
use reference::{is_negative, Exact, Fraction, Width, DOUBLE, SINGLE};
use std::collections::BTreeSet;

/// What a float is, and how far it is from an exact half at the scale: "half", "beside" if the
/// float one bit further or nearer is one.
fn kind(width: Width, bits: u64, scale: Fraction) -> &'static str {
    let size = bits % (1 << (width.exponent_bits + width.fraction_bits));
    match size {
        0 => "zero",
        _ if size >> width.fraction_bits == 0 => "subnormal",
        _ if is_half(width, bits, scale) => "half",
        _ if is_half(width, bits - 1, scale) => "a bit above a half",
        _ if is_half(width, bits + 1, scale) => "a bit below a half",
        _ => "other",
    }
}

/// Is the float's exact value times the scale a whole number and one half?
fn is_half(width: Width, bits: u64, scale: Fraction) -> bool {
    let Some(Exact { mantissa, exponent }) = Exact::of(width, bits) else {
        return false;
    };
    let (over, under) = scale.parts();
    let doubled = 2 * mantissa * over;
    match exponent {
        -100..=-1 => {
            let one = under << -exponent;
            doubled % one == 0 && doubled / one % 2 != 0
        }
        _ => false,
    }
}

const KINDS: [&str; 6] = [
    "zero",
    "subnormal",
    "half",
    "a bit above a half",
    "a bit below a half",
    "other",
];

#[test]
fn values_of_every_kind_and_sign_are_converted() {
    for format in Format::ALL {
        let layout = format.layout();
        let mut met = BTreeSet::new();
        for file in fit_files(format) {
            for value in values_of(&file) {
                let kind = kind(SINGLE, value.bits, layout.value_scale);
                met.insert((value.name, kind, is_negative(SINGLE, value.bits)));
            }
        }
        let wanted = layout.values.len() * 2 * KINDS.len();
        assert_eq!(met.len(), wanted, "{met:?}");
    }
}

#[test]
fn angles_of_every_kind_and_sign_are_converted() {
    for format in Format::ALL {
        let layout = format.layout();
        let mut met = BTreeSet::new();
        for angle in fit_angles(format) {
            let kind = kind(DOUBLE, angle.bits, layout.angle_scale);
            met.insert((angle.name, kind, is_negative(DOUBLE, angle.bits)));
        }
        for name in layout.angles {
            let of_all = met.iter().filter(|it| it.0 == *name).count();
            let is_spacing = name.contains("spacing") || name.contains("INC");
            // A spacing is above zero, and far enough from it to be normal.
            let wanted = if is_spacing {
                KINDS.len() - 2
            } else {
                2 * KINDS.len()
            };
            assert_eq!(of_all, wanted, "{name} {met:?}");
        }
    }
}

/// A float in whose place f64 arithmetic finds an exact half: the products beside it are cut.
#[test]
fn angles_occur_that_f64_arithmetic_rounds_otherwise() {
    for format in Format::ALL {
        let scale = format.layout().angle_scale;
        let (over, under) = scale.parts();
        let mut met = BTreeSet::new();
        for angle in fit_angles(format) {
            let product = f64::from_bits(angle.bits) * over as f64 / under as f64;
            let computed = (product + 0.5).floor() as i128;
            if reference::nearest(DOUBLE, angle.bits, scale) != Some(computed) {
                met.insert((angle.name, is_negative(DOUBLE, angle.bits)));
            }
        }
        assert!(met.len() >= 4, "{met:?}");
    }
}

/// The last f32 that becomes the limit, the one before it, the first two past it, and the same
/// below zero.
#[test]
fn values_stand_at_their_limit_and_one_bit_past_it() {
    for (format, first_unfit) in [(Format::Vdatum, 0x42C8_0007), (Format::Ntv2, 0x4210_0001)] {
        let mut met = BTreeSet::new();
        for file in files(format) {
            let noted = first_unfit - 2..=first_unfit + 1;
            let values = values_of(&file).into_iter();
            let values = values.filter(|it| noted.contains(&(it.bits % (1 << 31))));
            met.extend(values.map(|it| (it.name, it.bits)));
        }
        assert_eq!(met.len(), 8 * format.layout().values.len(), "{met:?}");
    }
}
