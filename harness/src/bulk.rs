//! The calls for all gauges at once, from the text of the request: the single lists of every site put together, and a path to each point from where the last
//! one ended. The lists and paths are the Rust's own; the numbers and slices are worked out here from the words of docs/use/RULES.md.

use crate::cases::{Case, Offsets};
use crate::expect::{self, Beside, Facts};
use crate::generate::floats;
use crate::generate::rng::Rng;
use crate::library::Call;
use crate::mesh::{Pt, EMPTY};
use crate::reference;
use crate::rust;
use crate::tally::Tally;
use source::Voronoi;

/// A lent slice as it is at first.
fn fresh(length: usize, with: u32) -> Vec<u32> {
    vec![with; length]
}

/// A length that is as asked, longer, or at times too short.
fn length(r: &mut Rng, asked: usize) -> usize {
    match r.below(40) {
        0 => asked.saturating_sub(1),
        1 => r.below(asked + 1),
        2..=7 => asked + r.below(5),
        _ => asked,
    }
}

/// What is made and then EMPTY; as it was after 1 to 6 and 16, EMPTY after 7 to 10.
fn made(number: u32, list: &[u32], before: &[u32]) -> Vec<u32> {
    match number {
        0 => expect::padded(list, before.len()),
        7..=10 => fresh(before.len(), EMPTY),
        _ => before.to_vec(),
    }
}

pub fn ask(
    index: u64, c: &Case, facts: &Facts, cells: &[Vec<u32>], diagram: Option<&Voronoi>, calls: &mut Vec<Call>, tally: &mut Tally,
) {
    let r = &mut Rng::new(0x62756c6b, index);
    all_neighbours(r, c, facts, cells, diagram, calls, tally);
    ends(r, c, facts, diagram, calls, tally);
}

fn all_neighbours(
    r: &mut Rng, c: &Case, facts: &Facts, cells: &[Vec<u32>], diagram: Option<&Voronoi>, calls: &mut Vec<Call>, tally: &mut Tally,
) {
    let m = &c.mesh;
    let n = m.count();
    let bare = r.chance(1, 3);
    let (offsets, entries) = if bare { (Vec::new(), Vec::new()) } else { c.lent_offsets(cells) };
    let work = fresh(length(r, n), 0xa5a5a5a5);
    let starts = fresh(length(r, n + 1), 0x5a5a5a5a);
    let out = fresh(length(r, m.triangles.len() + m.hull.len()), 0xb4b4b4b4);
    let room = work.len() >= n && starts.len() > n && out.len() >= m.triangles.len() + m.hull.len();
    let mut number = expect::mesh_number(m, facts, &Beside { room, area: None, site: None, to: None });
    let lent = !(offsets.is_empty() && entries.is_empty());
    if number == 0 && lent && !(offsets.len() == n + 1 && expect::offsets_sound(&offsets, entries.len())) {
        number = 16;
    }
    tally.number("all_neighbours", number);
    let mut lists: Vec<Vec<u32>> = Vec::new();
    if let (0, Some(v)) = (number, diagram) {
        lists = match (lent, c.offsets) {
            (false, _) => (0..n).map(|s| rust::neighbours(v, s)).collect(),
            (true, Offsets::Sound) => (0..n).map(|s| rust::clipped_neighbours(v, s)).collect(),
            // Moved offsets can still be sound: then the neighbours are those of the cells as they are lent.
            (true, _) => {
                let cut: Vec<Vec<u32>> = offsets.windows(2).map(|w| entries[w[0] as usize..w[1] as usize].to_vec()).collect();
                (0..n).map(|s| reference::clipped_neighbours(m, &facts.leftmost, &cut, s)).collect()
            }
        };
    }
    let mut begins = vec![0u32];
    let mut joined = Vec::new();
    for list in &lists {
        joined.extend(list);
        begins.push(joined.len() as u32);
    }
    let work_after = expect::work_after(number, &work, &facts.leftmost);
    calls.push(
        Call::new("all_neighbours")
            .gives(number)
            .mesh(m)
            .indexes(&offsets)
            .indexes(&entries)
            .lent_indexes(&work, &work_after)
            .lent_indexes(&starts, &made(number, &begins, &starts))
            .lent_indexes(&out, &made(number, &joined, &out)),
    );
}

fn ends(r: &mut Rng, c: &Case, facts: &Facts, diagram: Option<&Voronoi>, calls: &mut Vec<Call>, tally: &mut Tally) {
    let m = &c.mesh;
    let n = m.count();
    let count = r.below(7);
    let some = |r: &mut Rng, low: usize| match m.sites.get(low) {
        Some(x) if x.is_finite() && r.chance(3, 4) => x + r.below(9) as f64 / 8.0 - 0.5,
        _ => floats::admitted(r),
    };
    let mut points: Vec<f64> = Vec::new();
    for _ in 0..count {
        let near = if n > 0 { 2 * r.below(n) } else { 0 };
        let (x, y) = (some(r, near), some(r, near + 1));
        points.extend([x, y]);
    }
    if count > 0 && r.chance(1, 8) {
        let k = r.below(points.len());
        points[k] = floats::refused(r);
    }
    if r.chance(1, 12) {
        points.push(0.5);
    }
    let work = fresh(length(r, n), 0xa5a5a5a5);
    let out = fresh(length(r, count), 0x5a5a5a5a);
    let room = work.len() >= n && out.len() >= points.len() / 2;
    let bad = points.chunks_exact(2).find(|p| !(reference::ordinary(p[0]) && reference::ordinary(p[1])));
    let to = bad.map(|p| Pt { x: p[0], y: p[1] });
    let mut number = expect::mesh_number(m, facts, &Beside { room, area: None, site: Some(c.site), to });
    if points.len() % 2 != 0 {
        number = 1;
    }
    tally.number("ends", number);
    let mut after = out.clone();
    match (number, diagram) {
        (0, Some(v)) => {
            let mut at = c.site;
            for (k, p) in points.chunks_exact(2).enumerate() {
                at = *rust::path(v, at as usize, Pt { x: p[0], y: p[1] }).last().unwrap();
                after[k] = at;
            }
        }
        (7..=10, _) => after = fresh(out.len(), EMPTY),
        _ => {}
    }
    let work_after = expect::work_after(number, &work, &facts.leftmost);
    calls.push(
        Call::new("ends")
            .gives(number)
            .mesh(m)
            .number(c.site)
            .floats(&points)
            .lent_indexes(&work, &work_after)
            .lent_indexes(&out, &after),
    );
}
