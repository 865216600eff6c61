//! Cells for map tools (request 2026-01): a second writer of a Polygon in Well-Known Binary, from OGC 06-103r4, 8.2, and what the calls for one cell and
//! for all cells owe.

use crate::cases::Case;
use crate::expect;
use crate::generate::floats;
use crate::generate::rng::Rng;
use crate::library::Call;
use crate::mesh::Pt;
use crate::tally::Tally;

/// byteOrder 1, wkbType 3, numRings; of a ring numPoints and each point's x and y. A ring ends where it began; fewer than three points make none.
pub fn polygon(points: &[[u64; 2]]) -> Vec<u8> {
    let mut bytes = vec![1u8];
    let mut word = |n: usize| bytes.extend((n as u32).to_le_bytes());
    word(3);
    if points.len() < 3 {
        word(0);
        return bytes;
    }
    word(1);
    word(points.len() + 1);
    for p in points.iter().chain([&points[0]]) {
        for x in p {
            bytes.extend(x.to_le_bytes());
        }
    }
    bytes
}

/// The one pattern that the f64 call has for a NaN.
fn pattern(x: f64) -> u64 {
    if x.is_nan() {
        0x7ff8_0000_0000_0000
    } else {
        x.to_bits()
    }
}

/// 1, 4, 16, 18, 2, by the text of the request; the image where nothing is refused.
fn owed(patterns: &[u64], offsets: &[u32], entries: &[u32], site: u32, room: usize) -> Result<Vec<u8>, u32> {
    if patterns.len() % 2 == 1 {
        return Err(1);
    }
    let number = expect::cell_number(offsets, entries.len(), &[site]);
    if number != 0 {
        return Err(number);
    }
    let s = site as usize;
    let cell = &entries[offsets[s] as usize..offsets[s + 1] as usize];
    let points: Vec<[u64; 2]> = patterns.chunks_exact(2).map(|p| [p[0], p[1]]).collect();
    let ring: Option<Vec<[u64; 2]>> = cell.iter().map(|&e| points.get(e as usize).copied()).collect();
    let image = polygon(&ring.ok_or(18u32)?);
    if room < image.len() {
        return Err(2);
    }
    Ok(image)
}

/// 1, 16, 18, 2 over all cells: the images one after the other, and where each begins and the last ends.
fn owed_all(patterns: &[u64], offsets: &[u32], entries: &[u32], starts: usize, room: usize) -> Result<(Vec<u8>, Vec<u64>), u32> {
    if patterns.len() % 2 == 1 || entries.len() > 1 << 24 {
        return Err(1);
    }
    match expect::cell_number(offsets, entries.len(), &[]) {
        0 => {}
        number => return Err(number),
    }
    let points: Vec<[u64; 2]> = patterns.chunks_exact(2).map(|p| [p[0], p[1]]).collect();
    let (mut images, mut cuts) = (Vec::new(), vec![0]);
    for pair in offsets.windows(2) {
        let cell = &entries[pair[0] as usize..pair[1] as usize];
        let ring: Option<Vec<[u64; 2]>> = cell.iter().map(|&e| points.get(e as usize).copied()).collect();
        images.extend(polygon(&ring.ok_or(18u32)?));
        cuts.push(images.len() as u64);
    }
    if starts < cuts.len() || room < images.len() {
        return Err(2);
    }
    Ok((images, cuts))
}

/// A room that is too short, exact or more.
fn room_of(r: &mut Rng, whole: usize) -> usize {
    match r.below(8) {
        0 => whole.saturating_sub(1),
        1 => whole + 1,
        2 => r.below(whole + 1),
        3 => 0,
        4 => whole + r.below(40),
        _ => whole,
    }
}

/// The call for all cells, on the same vertices and cells; what no call writes stands in both slices before.
fn ask_all(r: &mut Rng, values: &[f64], offsets: &[u32], entries: &[u32], calls: &mut Vec<Call>, tally: &mut Tally) {
    let patterns: Vec<u64> = values.iter().map(|&x| pattern(x)).collect();
    let whole = match owed_all(&patterns, offsets, entries, usize::MAX, usize::MAX) {
        Ok((images, _)) => images.len(),
        Err(_) => r.below(400),
    };
    let room = room_of(r, whole);
    let starts = if r.chance(1, 3) { room_of(r, offsets.len()) } else { offsets.len() };
    let entry: Vec<u8> = (0..room).map(|i| 0x90 ^ i as u8).collect();
    let cuts_before: Vec<u64> = (0..starts).map(|i| 0x5a5a_0000 + i as u64).collect();
    let (mut exit, mut cuts_after) = (entry.clone(), cuts_before.clone());
    let (number, written) = match owed_all(&patterns, offsets, entries, starts, room) {
        Ok((images, cuts)) => {
            exit[..images.len()].copy_from_slice(&images);
            cuts_after.fill(u64::MAX);
            cuts_after[..cuts.len()].copy_from_slice(&cuts);
            (0, images.len() as u64)
        }
        Err(number) => (number, 0),
    };
    tally.number("all_wkb", number);
    let call = Call::new("all_wkb").gives(number).floats(values).indexes(offsets).indexes(entries);
    calls.push(call.lent_patterns(&cuts_before, &cuts_after).lent_bytes(&entry, &exit).gives_bits(written));
}

/// What is done to a sound list of vertices: nothing, a number too many, too few vertices for some cell, none, special patterns.
fn changed(r: &mut Rng, mut list: Vec<u64>) -> Vec<u64> {
    match r.below(10) {
        0 => list.push(r.word()),
        1 => list.truncate(2 * r.below(list.len() / 2 + 1)),
        2 => list.clear(),
        3 | 4 => {
            for x in &mut list {
                if r.chance(1, 3) {
                    let any = r.word();
                    *x = r.pick(&[any, 0x7ff0_0000_0000_0001, 0xffff_ffff_ffff_ffff, 0x7ff0_0000_0000_0000, 1 << 63, 1]);
                }
            }
        }
        _ => {}
    }
    list
}

/// The three calls on the cells of a case, with vertices, site and room of their own; what no call writes stands in the output before.
pub fn ask(index: u64, c: &Case, cells: &[Vec<u32>], vertices: Option<&[Pt]>, calls: &mut Vec<Call>, tally: &mut Tally) {
    let r = &mut Rng::new(0x776b62, index);
    let (offsets, entries) = c.lent_offsets(cells);
    let sound: Vec<u64> = match vertices {
        Some(list) => list.iter().flat_map(|p| [p.x.to_bits(), p.y.to_bits()]).collect(),
        None => {
            let most = entries.iter().max().map_or(0, |&e| e as usize + 1);
            (0..2 * most).map(|_| floats::pattern(r).to_bits()).collect()
        }
    };
    let list = changed(r, sound);
    // Mostly the case's site; else one whose cell is short, where there is one.
    let short = (0..cells.len()).find(|&s| cells[s].len() < 3);
    let site = if r.chance(1, 4) { short.map_or(c.site, |s| s as u32) } else { c.site };
    let whole = match owed(&list, &offsets, &entries, site, usize::MAX) {
        Ok(image) => image.len(),
        Err(_) => r.below(200),
    };
    let room = room_of(r, whole);
    let entry: Vec<u8> = (0..room).map(|i| 0x90 ^ i as u8).collect();
    let values: Vec<f64> = list.iter().map(|&b| f64::from_bits(b)).collect();
    for (name, patterns) in [("cell_wkb", values.iter().map(|&x| pattern(x)).collect()), ("cell_wkb_bits", list.clone())] {
        let answer = owed(&patterns, &offsets, &entries, site, room);
        let mut exit = entry.clone();
        let (number, written) = match &answer {
            Ok(image) => {
                exit[..image.len()].copy_from_slice(image);
                (0, image.len() as u64)
            }
            Err(n) => (*n, 0),
        };
        tally.number(name, number);
        let call = Call::new(name).gives(number);
        let call = if name == "cell_wkb" { call.floats(&values) } else { call.patterns(&list) };
        calls.push(call.indexes(&offsets).indexes(&entries).number(site).lent_bytes(&entry, &exit).gives_bits(written));
    }
    ask_all(r, &values, &offsets, &entries, calls, tally);
}

#[cfg(test)]
mod tests {
    use super::*;

    /// Cell 1 of "square", as the request's issue has it.
    #[test]
    fn square() {
        let points = [[0.0f64, 0.0], [-1.0, 0.0], [-1.0, 1.0], [0.0, 1.0]].map(|p: [f64; 2]| p.map(f64::to_bits));
        let hex: String = polygon(&points).iter().map(|b| format!("{b:02x}")).collect();
        let ring = "00000000000000000000000000000000000000000000f0bf0000000000000000000000000000f0bf\
                    000000000000f03f0000000000000000000000000000f03f00000000000000000000000000000000";
        assert_eq!(hex, format!("01030000000100000005000000{ring}"));
    }

    #[test]
    fn short() {
        for n in 0..3 {
            assert_eq!(polygon(&vec![[1, 2]; n]), [1, 3, 0, 0, 0, 0, 0, 0, 0]);
        }
    }
}
