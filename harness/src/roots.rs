//! Roots, magnitudes and signs against the machine's own.

use crate::generate::rng::Rng;
use crate::library::{Call, Difference, Library};
use crate::text::power;

const NAN: u64 = 0x7ff8000000000000;

pub const CLASSES: [&str; 10] = [
    "any pattern", "an exponent's corner", "subnormal", "square", "beside a square", "beside a halfway point", "NaN",
    "below 0", "zero or infinity", "power of two",
];

/// A pattern of the given class.
fn pattern(r: &mut Rng, class: usize) -> u64 {
    let small = |r: &mut Rng| (r.word() >> (11 + r.below(30))) as f64;
    match class {
        0 => r.word(),
        1 => (r.word() & (0x7ff << 52)).wrapping_add(r.range(-2, 2) as u64),
        2 => r.word() >> (12 + r.below(52)),
        3 | 4 => {
            let x = (r.word() >> 38) as f64 * power(r.range(-500, 400) as i32);
            (x * x).to_bits().wrapping_add(if class == 4 { r.range(-2, 2) as u64 } else { 0 })
        }
        5 => {
            // Just at the square of a number halfway between two floats.
            let x = (1u64 << 52) + (r.word() >> 12);
            let half = (2 * x as u128 + 1).pow(2) >> 2;
            let place = 53.max(128 - half.leading_zeros());
            let fraction = (half >> (place - 53)) as u64;
            let bits = ((1023 + place as u64 - 1 + 2 * r.below(200) as u64) << 52) | (fraction & !(1 << 52));
            bits.wrapping_add(r.range(-1, 1) as u64)
        }
        6 => (r.word() | (0x7ff << 52)) | 1,
        7 => r.word() | (1 << 63),
        8 => r.pick(&[0.0f64, -0.0, f64::INFINITY, f64::NEG_INFINITY, f64::MAX, power(-1074), -power(-1074)]).to_bits(),
        _ => power(r.range(-1074, 1023) as i32).to_bits().wrapping_add(small(r) as u64 & 1),
    }
}

/// Puts `count` patterns of each class to the six calls: owed are the machine's root, magnitude and sign, and the one
/// NaN where those are a NaN. Of a NaN's magnitude on floats only that it is a NaN is promised: it is not asked.
pub fn run(seed: u64, count: u64, library: &mut Library) -> Result<(), Difference> {
    let one = |y: f64| if y.is_nan() { NAN } else { y.to_bits() };
    for class in 0..CLASSES.len() {
        let r = &mut Rng::new(seed, 1 << 40 | class as u64);
        for i in 0..count {
            let b = pattern(r, class);
            let x = std::hint::black_box(f64::from_bits(b));
            for (bits, float, owed) in [
                ("root_bits", "root", one(x.sqrt())),
                ("magnitude_bits", "magnitude", b & !(1 << 63)),
                ("signum_bits", "signum", one(x.signum())),
            ] {
                library.put(i, Call::new(bits).gives_bits(owed).bits(b))?;
                if float != "magnitude" || !x.is_nan() {
                    library.put(i, Call::new(float).gives_bits(owed).bits(b))?;
                }
            }
        }
    }
    library.flush()
}
