//! Areas: the exact area of each ring in whole numbers, by schoolbook addition of digits of 32 bits, rounded once; and what the call owes.

use crate::cases::Case;
use crate::generate::rng::Rng;
use crate::library::Call;
use crate::mesh::Pt;
use crate::tally::Tally;

/// The first digit is worth 2^-2148, the unit of a product.
const DIGITS: usize = 96;

/// A finite value as significand and exponent: m times 2^(e - 1074), and whether it is below 0.
fn parts(x: f64) -> (u64, usize, bool) {
    let bits = x.to_bits();
    let (field, fraction) = ((bits >> 52 & 0x7ff) as usize, bits & ((1 << 52) - 1));
    if field == 0 {
        (fraction, 0, bits >> 63 == 1)
    } else {
        (fraction | 1 << 52, field - 1, bits >> 63 == 1)
    }
}

/// A sum of products, exact. Its digits, of which those from `low` up to `high` are in use, may leave their range until they are settled.
pub struct Sum {
    digits: [i128; DIGITS],
    low: usize,
    high: usize,
}

impl Sum {
    pub fn new() -> Sum {
        Sum { digits: [0; DIGITS], low: DIGITS, high: 0 }
    }

    /// x y 2^times is added, or taken off.
    pub fn add(&mut self, x: f64, y: f64, times: usize, off: bool) {
        let ((m, e, s), (n, f, t)) = (parts(x), parts(y));
        let sign = if (s != t) != off { -1 } else { 1 };
        let (place, shift) = ((e + f + times) / 32, (e + f + times) % 32);
        let product = m as u128 * n as u128;
        for k in 0..4 {
            self.digits[place + k] += sign * ((product >> (32 * k) & 0xffff_ffff) << shift) as i128;
        }
        self.low = self.low.min(place);
        self.high = self.high.max(place + 4);
    }

    /// The sides of a ring, the one back to the first corner included, times 2^times: twice its area.
    pub fn ring(&mut self, ring: &[Pt], times: usize, off: bool) {
        for (p, q) in ring.iter().zip(ring.iter().cycle().skip(1)) {
            self.add(p.y, q.x, times, off);
            self.add(p.x, q.y, times, !off);
        }
    }

    /// -1, 0 or 1.
    pub fn sign(&self) -> i32 {
        let (mut carry, mut some) = (0, false);
        for k in self.low..self.high {
            let x = self.digits[k] + carry;
            carry = x >> 32;
            some |= x & 0xffff_ffff != 0;
        }
        match carry {
            0 => some as i32,
            c => c.signum() as i32,
        }
    }

    /// Half of it, rounded once, with its sign.
    pub fn half(&self) -> f64 {
        let settled = |sign: i128| {
            let mut carry = 0;
            let digits: Vec<u32> = self
                .digits
                .iter()
                .map(|d| {
                    let x = sign * d + carry;
                    carry = x >> 32;
                    (x & 0xffff_ffff) as u32
                })
                .collect();
            (digits, carry)
        };
        match settled(1) {
            (digits, 0) => rounded(&digits),
            _ => -rounded(&settled(-1).0),
        }
    }
}

/// A whole number of 2^-2149, as digits, rounded to the nearest f64, at a tie to the even one.
fn rounded(digits: &[u32]) -> f64 {
    let bit = |k: usize| digits[k / 32] >> (k % 32) & 1;
    let size = (0..32 * digits.len()).rev().find(|&k| bit(k) == 1).map_or(0, |k| k + 1);
    let drop = (size.max(53) - 53).max(1075);
    let mut kept = (drop..size).rev().fold(0u64, |q, k| q << 1 | bit(k) as u64);
    let below = (0..drop - 1).any(|k| bit(k) == 1);
    if bit(drop - 1) == 1 && (below || kept % 2 == 1) {
        kept += 1;
    }
    let exponent = drop as i32 - 2149;
    let power = if exponent < -1022 { f64::from_bits(1 << (exponent + 1074)) } else { f64::from_bits(((exponent + 1023) as u64) << 52) };
    kept as f64 * power
}

/// Half the sum, over the sides (x, y) to (u, v), the one back to the first corner included, of y u - x v.
pub fn area(ring: &[Pt]) -> f64 {
    let mut sum = Sum::new();
    sum.ring(ring, 0, false);
    sum.half()
}

/// 1, 16, 18, 24, 2, by the text of the request; the areas where nothing is refused.
fn owed(vertices: &[f64], offsets: &[u32], entries: &[u32], room: usize) -> Result<Vec<f64>, u32> {
    if vertices.len() % 2 == 1 || entries.len() > 1 << 24 {
        return Err(1);
    }
    let cut = offsets.first() == Some(&0) && offsets.windows(2).all(|w| w[0] <= w[1]) && offsets.last().is_some_and(|&o| o as usize <= entries.len());
    if !cut {
        return Err(16);
    }
    let cells: Vec<&[u32]> = offsets.windows(2).map(|w| &entries[w[0] as usize..w[1] as usize]).collect();
    let named = || cells.iter().flat_map(|c| c.iter()).map(|&e| e as usize);
    if named().any(|e| e >= vertices.len() / 2) {
        return Err(18);
    }
    if named().any(|e| vertices[2 * e..2 * e + 2].iter().any(|x| !(x.abs() <= 2f64.powi(400)))) {
        return Err(24);
    }
    if room < cells.len() {
        return Err(2);
    }
    let corner = |e: &u32| Pt { x: vertices[2 * *e as usize], y: vertices[2 * *e as usize + 1] };
    Ok(cells.iter().map(|c| area(&c.iter().map(corner).collect::<Vec<Pt>>())).collect())
}

/// What is done to a sound list of vertices: nothing, a number too many, too few, one that is not finite or too large, corners of any size.
fn changed(r: &mut Rng, mut list: Vec<f64>) -> Vec<f64> {
    match r.below(12) {
        0 => list.push(1.0),
        1 => list.truncate(2 * r.below(list.len() / 2 + 1)),
        2 if !list.is_empty() => {
            let k = r.below(list.len());
            list[k] = r.pick(&[f64::NAN, f64::INFINITY, -f64::INFINITY, 2f64.powi(401), -2f64.powi(400) * (1.0 + f64::EPSILON)]);
        }
        3 | 4 => {
            for x in &mut list {
                *x = f64::from_bits(r.word() % 0x58f0_0000_0000_0001 | (r.word() & 1) << 63);
            }
        }
        5 => {
            for x in &mut list {
                let few = r.below(5) as f64 - 2.0;
                *x = few * 2f64.powi(-537);
            }
        }
        _ => {}
    }
    list
}

/// The call on the cells of a case, with vertices and room of its own.
pub fn ask(index: u64, c: &Case, cells: &[Vec<u32>], vertices: Option<&[Pt]>, calls: &mut Vec<Call>, tally: &mut Tally) {
    let r = &mut Rng::new(0x61726561, index);
    let (offsets, entries) = c.lent_offsets(cells);
    let sound: Vec<f64> = match vertices {
        Some(list) => list.iter().flat_map(|p| [p.x, p.y]).collect(),
        None => {
            let most = entries.iter().max().map_or(0, |&e| e as usize + 1);
            (0..2 * most.min(4096)).map(|_| r.below(2001) as f64 / 7.0 - 143.0).collect()
        }
    };
    let list = changed(r, sound);
    let whole = offsets.len().saturating_sub(1);
    let room = match r.below(6) {
        0 => whole.saturating_sub(1),
        1 => whole + r.below(5),
        2 => r.below(whole + 1),
        _ => whole,
    };
    let entry: Vec<f64> = (0..room).map(|i| i as f64 - 77.5).collect();
    let answer = owed(&list, &offsets, &entries, room);
    let (number, exit) = match &answer {
        Ok(areas) => (0, (0..room).map(|i| areas.get(i).copied().unwrap_or(0.0)).collect()),
        Err(n) => (*n, entry.clone()),
    };
    tally.number("areas", number);
    calls.push(Call::new("areas").gives(number).floats(&list).indexes(&offsets).indexes(&entries).lent_floats(&entry, &exit));
}

#[cfg(test)]
mod tests {
    use super::*;

    fn ring(points: &[[f64; 2]]) -> f64 {
        area(&points.iter().map(|p| Pt { x: p[0], y: p[1] }).collect::<Vec<Pt>>())
    }

    /// Cell 1 of "square", the other way round, one line there and back, a tie and a little more.
    #[test]
    fn rows() {
        assert_eq!(ring(&[[0.0, 0.0], [-1.0, 0.0], [-1.0, 1.0], [0.0, 1.0]]), 1.0);
        assert_eq!(ring(&[[0.0, 0.0], [0.0, 1.0], [-1.0, 1.0], [-1.0, 0.0]]), -1.0);
        assert_eq!(ring(&[[0.1, 0.1], [0.2, 0.2], [0.3, 0.3]]).to_bits(), 0);
        let least = 2f64.powi(-537);
        assert_eq!(ring(&[[0.0, 0.0], [0.0, least], [least, 0.0]]).to_bits(), 0);
        assert_eq!(ring(&[[0.0, 0.0], [0.0, least], [least * (1.0 + f64::EPSILON), 0.0]]).to_bits(), 1);
    }
}
