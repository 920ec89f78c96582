//! Made-up values of nodes, heights in metres or shifts in arcseconds, as the bits of an f32.

use super::angles::halves;
use crate::random::Random;
use crate::Format;

const SIGN: u32 = 1 << 31;
const INFINITY: u32 = 0x7F80_0000;
const LARGEST: u32 = INFINITY - 1;
/// The smallest f32 above zero that is not subnormal.
const SMALLEST_NORMAL: u32 = 1 << 23;

/// What the values of a format's nodes may be.
#[derive(Clone, Copy)]
pub struct Limits {
    format: Format,
    /// Two floats past this number they are still fit.
    edge_limit: f64,
    /// The first f32 above zero that is past the limit.
    first_unfit: u32,
}

pub const HEIGHTS: Limits = Limits {
    format: Format::Vdatum,
    edge_limit: 999_998.0,
    first_unfit: 0x42C8_0007,
};

pub const SHIFTS: Limits = Limits {
    format: Format::Ntv2,
    edge_limit: 9_999_990.0,
    first_unfit: 0x4210_0001,
};

/// How the values of one file are made.
#[derive(Clone, Copy)]
enum Manner {
    /// Whole numbers.
    Whole,
    /// Exact halves, and one bit beside them.
    Half,
    /// A few bits beside a half, where no float is exactly on it.
    Edge,
    /// Zeros of either sign, subnormal floats and other very small ones.
    Tiny,
    /// At the limit.
    Limit,
    /// Any fit bits.
    Any,
}

const MANNERS: [Manner; 6] = [
    Manner::Whole,
    Manner::Half,
    Manner::Edge,
    Manner::Tiny,
    Manner::Limit,
    Manner::Any,
];

/// So many values, none of them refused, all in one manner or each in any.
pub fn fit_values(random: &mut Random, limits: Limits, count: i64) -> Vec<u32> {
    let one: Option<Manner> = random.chance(70).then(|| random.pick(&MANNERS));
    (0..count)
        .map(|_| {
            let manner = one.unwrap_or_else(|| random.pick(&MANNERS));
            limits.fit_value(random, manner)
        })
        .collect()
}

impl Limits {
    fn fit_value(&self, random: &mut Random, manner: Manner) -> u32 {
        let whole = random.around_zero(self.limit()) as f64;
        match manner {
            Manner::Whole => self.nearest_to(whole),
            Manner::Half => self.half(random),
            Manner::Edge => {
                let whole = whole.clamp(-self.edge_limit, self.edge_limit);
                let nearest = self.nearest_to(whole + 0.5);
                nearest.wrapping_add_signed(random.around_zero(2) as i32)
            }
            Manner::Tiny => tiny(random),
            Manner::Limit => signed(random, self.first_unfit - 1) - random.below(10) as u32,
            Manner::Any => {
                let size = random.below(self.first_unfit.into()) as u32;
                signed(random, size)
            }
        }
    }

    /// How far from zero they may be once rounded.
    fn limit(&self) -> i64 {
        self.format.layout().value_limit as i64
    }

    /// The float nearest to a whole number.
    fn nearest_to(&self, whole: f64) -> u32 {
        let (over, under) = self.format.layout().value_scale.parts();
        ((whole * under as f64 / over as f64) as f32).to_bits()
    }

    /// An odd multiple of 1/32 metre, 312.5 units, or of 9/64 arcsecond, 39,062.5 nd, or one bit
    /// beside it.
    fn half(&self, random: &mut Random) -> u32 {
        let (half_units, step) = halves(self.format.layout().value_scale);
        let most = self.limit() / half_units;
        let odd = 2 * random.between(-most, most - 1) + 1;
        let half = ((odd as f64 * step) as f32).to_bits();
        half.wrapping_add_signed(random.pick(&[0, 0, 0, -1, 1]))
    }

    /// A value that is refused: not finite, or past its limit.
    pub fn unfit_value(&self, random: &mut Random) -> u32 {
        let first = self.first_unfit + random.below(3) as u32;
        let past = random.between(self.first_unfit.into(), LARGEST.into()) as u32;
        let fraction = random.between(1, (1 << 23) - 1) as u32;
        let no_number = INFINITY | random.pick(&[1, 1 << 22, (1 << 23) - 1, fraction]);
        let size = random.pick(&[first, first, past, LARGEST, INFINITY, INFINITY, no_number]);
        signed(random, size)
    }
}

fn signed(random: &mut Random, size: u32) -> u32 {
    random.pick(&[0, SIGN]) | size
}

fn tiny(random: &mut Random) -> u32 {
    let subnormal = random.below(SMALLEST_NORMAL.into()) as u32;
    let small = random.below(0x3000_0000) as u32;
    let size = random.pick(&[
        0,
        0,
        1,
        subnormal,
        SMALLEST_NORMAL - 1,
        SMALLEST_NORMAL,
        small,
    ]);
    signed(random, size)
}
