//! Floats at random and at the edges: both zeros, subnormals, powers of two, neighbours of limits, NaNs.

use super::rng::Rng;
use crate::text::power;

/// Any pattern at all.
pub fn pattern(r: &mut Rng) -> f64 {
    f64::from_bits(r.word())
}

/// A sign, an exponent from `low` to `high` and any fraction.
pub fn between(r: &mut Rng, low: i32, high: i32) -> f64 {
    let e = r.range((low + 1023) as i64, (high + 1023) as i64) as u64;
    f64::from_bits((r.word() & !(0x7ffu64 << 52)) | (e << 52))
}

/// A float that 6 admits, often a hard one.
pub fn admitted(r: &mut Rng) -> f64 {
    let x = match r.weighted(&[6, 6, 6, 3, 2, 2, 2, 1, 1, 2]) {
        0 => r.signed(),
        1 => r.range(-8, 8) as f64 / 4.0,
        2 => r.range(-3, 3) as f64,
        3 => between(r, -60, 60),
        4 => between(r, -1022, 99),
        5 => step(r.range(-4, 4) as f64 / 2.0, r.range(-3, 3)),
        6 => r.pick(&[1.0, -1.0]) * power(r.range(-1074, 100) as i32),
        7 => r.pick(&[0.0, -0.0, power(-1074), -power(-1074), power(-1022), step(power(-1022), -1)]),
        8 => r.pick(&[power(100), -power(100), step(power(100), -1), -step(power(100), -1)]),
        _ => r.range(-3, 3) as f64 + r.range(-3, 3) as f64 * r.pick(&[power(-50), power(-51), power(-49), power(-52)]),
    };
    debug_assert!(crate::reference::ordinary(x));
    x
}

/// A float that 6 refuses.
pub fn refused(r: &mut Rng) -> f64 {
    match r.below(6) {
        0 => f64::NAN,
        1 => f64::INFINITY,
        2 => f64::NEG_INFINITY,
        3 => step(power(100), 1),
        4 => -step(power(100), 1),
        _ => between(r, 101, 1023),
    }
}

/// The k-th neighbour of x in the order of the finite floats (never past 0 or the largest).
pub fn step(x: f64, k: i64) -> f64 {
    let bits = x.to_bits();
    let magnitude = bits & !(1 << 63);
    let moved = (magnitude as i64 + if x.is_sign_negative() { -k } else { k }).clamp(0, f64::MAX.to_bits() as i64);
    f64::from_bits((bits & (1 << 63)) | moved as u64)
}
