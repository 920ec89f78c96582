//! The nearest whole number to a float's exact value, by hand.

use reference::{
    nearest, turned, Exact, Fraction, DOUBLE, FROM_ARCSECONDS, FROM_DEGREES, FROM_METRES, SINGLE,
};

const SCALES: [Fraction; 3] = [FROM_METRES, FROM_DEGREES, FROM_ARCSECONDS];

fn nd(angle: f64) -> Option<i128> {
    nearest(DOUBLE, angle.to_bits(), FROM_DEGREES)
}

/// The nd of a bound, and of a shift.
fn of_arcseconds(angle: f64) -> Option<i128> {
    let nd = nearest(DOUBLE, angle.to_bits(), FROM_ARCSECONDS);
    let shift = angle as f32;
    if f64::from(shift) == angle {
        let bits = shift.to_bits().into();
        assert_eq!(nearest(SINGLE, bits, FROM_ARCSECONDS), nd);
    }
    nd
}

fn units(height: f32) -> Option<i128> {
    nearest(SINGLE, height.to_bits().into(), FROM_METRES)
}

#[test]
fn exact_values_are_mantissa_times_a_power_of_two() {
    let exact = |mantissa, exponent| Some(Exact { mantissa, exponent });
    assert_eq!(Exact::of(SINGLE, 0x3F80_0000), exact(1 << 23, -23));
    assert_eq!(Exact::of(SINGLE, 0xC0A0_0000), exact(-5 << 21, -21));
    assert_eq!(Exact::of(SINGLE, 0x0000_0001), exact(1, -149));
    assert_eq!(Exact::of(SINGLE, 0x807F_FFFF), exact(1 - (1 << 23), -149));
    assert_eq!(Exact::of(SINGLE, 0x0080_0000), exact(1 << 23, -149));
    assert_eq!(Exact::of(SINGLE, 0x7F7F_FFFF), exact((1 << 24) - 1, 104));
    assert_eq!(Exact::of(DOUBLE, 0x3FF0 << 48), exact(1 << 52, -52));
    assert_eq!(Exact::of(DOUBLE, 0xC014 << 48), exact(-5 << 50, -50));
    assert_eq!(Exact::of(DOUBLE, 1), exact(1, -1_074));
    assert_eq!(Exact::of(DOUBLE, 0x0010 << 48), exact(1 << 52, -1_074));
    let largest = Exact::of(DOUBLE, 0x7FEF_FFFF_FFFF_FFFF);
    assert_eq!(largest, exact((1 << 53) - 1, 971));
}

#[test]
fn whole_numbers_and_those_beside_them() {
    assert_eq!(nd(52.0), Some(52_000_000_000));
    assert_eq!(nd(-180.0), Some(-180_000_000_000));
    assert_eq!(nd(0.1), Some(100_000_000));
    assert_eq!(nd(-0.000_000_001), Some(-1));
    assert_eq!(nd(52.000_000_000_4), Some(52_000_000_000));
    assert_eq!(nd(52.000_000_000_6), Some(52_000_000_001));
    assert_eq!(nd(-52.000_000_000_4), Some(-52_000_000_000));
    assert_eq!(nd(-52.000_000_000_6), Some(-52_000_000_001));
    assert_eq!(units(43.0), Some(430_000));
    assert_eq!(units(-0.0001), Some(-1));
    assert_eq!(units(43.123_44), Some(431_234));
    assert_eq!(units(-43.123_46), Some(-431_235));
    assert_eq!(of_arcseconds(187_200.0), Some(52_000_000_000));
    assert_eq!(of_arcseconds(-36.0), Some(-10_000_000));
    // 277,777.777… nd, and 27,777.777…
    assert_eq!(of_arcseconds(1.0), Some(277_778));
    assert_eq!(of_arcseconds(-1.0), Some(-277_778));
    assert_eq!(of_arcseconds(0.1), Some(27_778));
    // 138,888.888… nd, and 555,555.555…
    assert_eq!(of_arcseconds(-0.5), Some(-138_889));
    assert_eq!(of_arcseconds(2.0), Some(555_556));
    // 1,111,111.111… nd.
    assert_eq!(of_arcseconds(4.0), Some(1_111_111));
    assert_eq!(of_arcseconds(-4.0), Some(-1_111_111));
}

#[test]
fn exact_halves_go_upward() {
    // 1/1024 degree is 976,562.5 nd, 1/32 m is 312.5 units.
    assert_eq!(nd(0.000_976_562_5), Some(976_563));
    assert_eq!(nd(-0.000_976_562_5), Some(-976_562));
    assert_eq!(nd(89.999_023_437_5), Some(89_999_023_438));
    assert_eq!(nd(-89.999_023_437_5), Some(-89_999_023_437));
    assert_eq!(units(0.031_25), Some(313));
    assert_eq!(units(-0.031_25), Some(-312));
    assert_eq!(units(99.968_75), Some(999_688));
    assert_eq!(units(-99.968_75), Some(-999_687));
    // 9/64 arcsecond is 39,062.5 nd.
    assert_eq!(of_arcseconds(0.140_625), Some(39_063));
    assert_eq!(of_arcseconds(-0.140_625), Some(-39_062));
    assert_eq!(of_arcseconds(35.859_375), Some(9_960_938));
    assert_eq!(of_arcseconds(-35.859_375), Some(-9_960_937));
}

/// So a half goes the other way.
#[test]
fn a_turned_float_has_the_other_sign_before_it_is_rounded() {
    let both = |bits| [bits, turned(SINGLE, bits)].map(|it| nearest(SINGLE, it, FROM_ARCSECONDS));
    assert_eq!(both(0x3E10_0000), [39_063, -39_062].map(Some));
    assert_eq!(both(0xBE10_0000), [-39_062, 39_063].map(Some));
    assert_eq!([0, 1 << 31].map(both), [[Some(0); 2]; 2]);
    assert_eq!(turned(DOUBLE, 36_f64.to_bits()), (-36_f64).to_bits());
    assert_eq!(turned(DOUBLE, 0), 1 << 63);
}

#[test]
fn one_bit_beside_a_half_decides() {
    let half = 0x3F50_0000_0000_0000;
    let angles =
        |sign: u64| [half - 1, half, half + 1].map(|it| nearest(DOUBLE, sign + it, FROM_DEGREES));
    assert_eq!(angles(0), [976_562, 976_563, 976_563].map(Some));
    assert_eq!(angles(1 << 63), [-976_562, -976_562, -976_563].map(Some));
    let half = 0x3D00_0000;
    let heights =
        |sign: u64| [half - 1, half, half + 1].map(|it| nearest(SINGLE, sign + it, FROM_METRES));
    assert_eq!(heights(0), [312, 313, 313].map(Some));
    assert_eq!(heights(1 << 31), [-312, -312, -313].map(Some));
    let half = 0.140_625_f64.to_bits();
    let angles = |sign: u64| {
        [half - 1, half, half + 1].map(|it| nearest(DOUBLE, sign + it, FROM_ARCSECONDS))
    };
    assert_eq!(angles(0), [39_062, 39_063, 39_063].map(Some));
    assert_eq!(angles(1 << 63), [-39_062, -39_062, -39_063].map(Some));
}

#[test]
fn either_width_has_halves_at_either_scale() {
    assert_eq!(nearest(SINGLE, 0x3A80_0000, FROM_DEGREES), Some(976_563));
    assert_eq!(nearest(SINGLE, 0xBA80_0000, FROM_DEGREES), Some(-976_562));
    assert_eq!(nearest(DOUBLE, 0x3FA0 << 48, FROM_METRES), Some(313));
    assert_eq!(nearest(DOUBLE, 0xBFA0 << 48, FROM_METRES), Some(-312));
}

#[test]
fn both_zeros_and_subnormals_are_zero() {
    for scale in SCALES {
        for size in [0, 1, 0x0040_0000, 0x007F_FFFF, 0x0080_0000] {
            assert_eq!(nearest(SINGLE, size, scale), Some(0));
            assert_eq!(nearest(SINGLE, (1 << 31) + size, scale), Some(0));
        }
        let largest_subnormal = 0x000F_FFFF_FFFF_FFFF;
        for size in [0, 1, 1 << 51, largest_subnormal, largest_subnormal + 1] {
            assert_eq!(nearest(DOUBLE, size, scale), Some(0));
            assert_eq!(nearest(DOUBLE, (1 << 63) + size, scale), Some(0));
        }
    }
}

/// The nearest number to a power of two at a scale; 2^far and those above are too far from zero to
/// have one.
fn nearest_to_power(scale: Fraction, power: i32, far: i32) -> Option<i128> {
    let (over, under) = scale.parts();
    match power {
        _ if power >= far => None,
        0.. => Some(((over << (power + 1)) + under) / (2 * under)),
        -60..=-1 => Some((2 * over + (under << -power)) / (under << (1 - power))),
        _ => Some(0),
    }
}

#[test]
fn every_power_of_two_has_its_nearest_number_or_is_far() {
    for scale in SCALES {
        for power in -126..=127 {
            let bits = ((power + 127) as u64) << 23;
            let wanted = nearest_to_power(scale, power, 64);
            assert_eq!(nearest(SINGLE, bits, scale), wanted);
        }
        for power in -149..-126 {
            assert_eq!(nearest(SINGLE, 1 << (power + 149), scale), Some(0));
        }
        for power in -1_022..=1_023 {
            let bits = ((power + 1_023) as u64) << 52;
            let wanted = nearest_to_power(scale, power, 93);
            assert_eq!(nearest(DOUBLE, bits, scale), wanted);
        }
        for power in -1_074..-1_022 {
            assert_eq!(nearest(DOUBLE, 1 << (power + 1_074), scale), Some(0));
        }
    }
}

#[test]
fn the_largest_floats_are_far_and_those_past_them_not_finite() {
    for sign in [0, 1 << 31] {
        assert_eq!(nearest(SINGLE, sign + 0x7F7F_FFFF, FROM_METRES), None);
        for bits in [0x7F80_0000, 0x7F80_0001, 0x7FC0_0000, 0x7FFF_FFFF] {
            assert_eq!(Exact::of(SINGLE, sign + bits), None);
        }
    }
    for sign in [0, 1 << 63] {
        assert_eq!(
            nearest(DOUBLE, sign + 0x7FEF_FFFF_FFFF_FFFF, FROM_DEGREES),
            None
        );
        let infinity = 0x7FF0 << 48;
        for bits in [infinity, infinity + 1, 0x7FF8 << 48, u64::MAX >> 1] {
            assert_eq!(Exact::of(DOUBLE, sign + bits), None);
        }
    }
}
