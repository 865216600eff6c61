//! Gauges from files (request 2026-10): a second reader and writer of a MultiPoint in Well-Known Binary, from OGC 06-103r4, 8.2, and what the two calls owe.

use crate::generate::floats;
use crate::generate::rng::Rng;
use crate::library::Call;
use crate::tally::Tally;

/// A number of so many bytes off the front, in the order of a mark.
fn number(bytes: &mut &[u8], little: bool, n: usize) -> Option<u64> {
    let (first, rest) = bytes.split_at_checked(n)?;
    *bytes = rest;
    let digit = |x: u64, b: &u8| x << 8 | u64::from(*b);
    Some(if little { first.iter().rev().fold(0, digit) } else { first.iter().fold(0, digit) })
}

/// A mark and a type.
fn start(bytes: &mut &[u8], kind: u64) -> Option<bool> {
    let little = match number(bytes, true, 1)? {
        0 => false,
        1 => true,
        _ => return None,
    };
    (number(bytes, little, 4)? == kind).then_some(little)
}

/// WKBMultiPoint: byteOrder, wkbType 4, numPoints, and so many WKBPoints: byteOrder, wkbType 1, x, y. Nothing after.
pub fn points(mut bytes: &[u8]) -> Option<Vec<u64>> {
    let little = start(&mut bytes, 4)?;
    let count = number(&mut bytes, little, 4)?;
    let mut list = vec![];
    for _ in 0..count {
        let own = start(&mut bytes, 1)?;
        list.push(number(&mut bytes, own, 8)?);
        list.push(number(&mut bytes, own, 8)?);
    }
    bytes.is_empty().then_some(list)
}

fn put(bytes: &mut Vec<u8>, little: bool, x: u64, n: usize) {
    let all = x.to_le_bytes();
    if little {
        bytes.extend(&all[..n]);
    } else {
        bytes.extend(all[..n].iter().rev());
    }
}

/// The file of patterns, two a point; `order` says the mark of the head and then of each point.
pub fn file(patterns: &[u64], mut order: impl FnMut() -> bool) -> Vec<u8> {
    let mut bytes = vec![];
    let little = order();
    put(&mut bytes, little, little.into(), 1);
    put(&mut bytes, little, 4, 4);
    put(&mut bytes, little, patterns.len() as u64 / 2, 4);
    for p in patterns.chunks_exact(2) {
        let own = order();
        put(&mut bytes, own, own.into(), 1);
        put(&mut bytes, own, 1, 4);
        put(&mut bytes, own, p[0], 8);
        put(&mut bytes, own, p[1], 8);
    }
    bytes
}

fn sound(patterns: &[u64]) -> bool {
    patterns.iter().all(|&b| f64::from_bits(b).abs() <= 2f64.powi(100))
}

/// 21, 1, 2, 6 by the text of the request.
fn read_owed(file: &[u8], room: usize) -> Result<Vec<u64>, u32> {
    let list = points(file).ok_or(21u32)?;
    if !(3..=65_536).contains(&(list.len() / 2)) {
        return Err(1);
    }
    if room < list.len() {
        return Err(2);
    }
    if sound(&list) {
        Ok(list)
    } else {
        Err(6)
    }
}

/// 1, 2, 6.
fn write_owed(patterns: &[u64], room: usize) -> Result<Vec<u8>, u32> {
    if patterns.len() % 2 == 1 || !(3..=65_536).contains(&(patterns.len() / 2)) {
        return Err(1);
    }
    if room < 9 + 21 * (patterns.len() / 2) {
        return Err(2);
    }
    if sound(patterns) {
        Ok(file(patterns, || true))
    } else {
        Err(6)
    }
}

fn coordinates(r: &mut Rng) -> Vec<u64> {
    let count = if r.chance(1, 6) { r.below(4) } else { 3 + r.below(8) };
    let odd = r.chance(1, 4);
    (0..2 * count).map(|_| if odd && r.chance(1, 6) { floats::pattern(r) } else { floats::admitted(r) }.to_bits()).collect()
}

fn damaged(r: &mut Rng, mut bytes: Vec<u8>) -> Vec<u8> {
    match r.below(12) {
        0 => bytes.push(r.word() as u8),
        1 => bytes.truncate(r.below(bytes.len())),
        2 => {
            let at = r.below(bytes.len());
            bytes[at] ^= 1 << r.below(8);
        }
        3 => bytes[5 + r.below(4)] = r.word() as u8,
        _ => {}
    }
    bytes
}

/// Both calls on a random file and on random sites; what no call writes stands in the outputs before.
pub fn ask(index: u64, calls: &mut Vec<Call>, tally: &mut Tally) {
    let r = &mut Rng::new(0x6d_706f_696e_74, index);
    let list = coordinates(r);
    let orders = r.word();
    let mut turn = 0;
    let given = file(&list, || {
        turn += 1;
        orders >> (turn % 64) & 1 == 1
    });
    let given = damaged(r, given);
    let room = (list.len() + r.below(4)).saturating_sub(if r.chance(1, 8) { 4 } else { 0 });
    let entry = vec![-77.5; room];
    let mut exit = entry.clone();
    let (refusal, count) = match read_owed(&given, room) {
        Ok(read) => {
            for (i, x) in exit.iter_mut().enumerate() {
                *x = f64::from_bits(read.get(i).copied().unwrap_or(0));
            }
            (0, read.len() as u32 / 2)
        }
        Err(n) => (n, 0),
    };
    tally.number("read_multipoint", refusal);
    calls.push(Call::new("read_multipoint").gives(refusal).lent_bytes(&given, &given).lent_floats(&entry, &exit).gives(count));

    let mut list = coordinates(r);
    if r.chance(1, 10) {
        list.push(r.word());
    }
    let whole = 9 + 21 * (list.len() / 2);
    let room = match r.below(6) {
        0 => whole - 1,
        1 => whole + 1 + r.below(30),
        _ => whole,
    };
    let entry: Vec<u8> = (0..room).map(|i| 0x90 ^ i as u8).collect();
    let mut exit = entry.clone();
    let (refusal, written) = match write_owed(&list, room) {
        Ok(bytes) => {
            exit[..bytes.len()].copy_from_slice(&bytes);
            (0, bytes.len() as u64)
        }
        Err(n) => (n, 0),
    };
    tally.number("write_multipoint", refusal);
    let values: Vec<f64> = list.iter().map(|&b| f64::from_bits(b)).collect();
    calls.push(Call::new("write_multipoint").gives(refusal).floats(&values).lent_bytes(&entry, &exit).gives_bits(written));
}

#[cfg(test)]
mod tests {
    use super::*;

    #[test]
    fn orders() {
        let list: Vec<u64> = (0..6).map(|i| f64::from(i).to_bits()).collect();
        for little in [false, true] {
            assert_eq!(points(&file(&list, || little)), Some(list.clone()));
        }
        let mut whole = file(&list, || true);
        assert_eq!(whole.len(), 72);
        assert_eq!(points(&whole[..71]), None);
        whole.push(0);
        assert_eq!(points(&whole), None);
    }
}
