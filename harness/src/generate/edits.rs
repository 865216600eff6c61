//! Meshes as a person leaves them after editing triangles by hand: pairs and hull forgotten, turned, wrong; triangles taken
//! out, put in, doubled, turned.

use super::damage;
use super::meshes;
use super::rng::Rng;
use super::topology;
use crate::mesh::{next, Mesh, EMPTY};

/// A sound mesh with some edits; one in twelve with a fault of any kind besides.
pub fn edited(r: &mut Rng) -> Mesh {
    let mut m = meshes::sound(r);
    if r.chance(1, 15) {
        return m;
    }
    for _ in 0..1 + r.below(3) {
        match r.weighted(&[10, 10, 4]) {
            0 => pairs(r, &mut m),
            1 => hull(r, &mut m),
            _ => triangles(r, &mut m),
        }
    }
    if r.chance(1, 12) {
        damage::any(r, &mut m);
    }
    m
}

fn pairs(r: &mut Rng, m: &mut Mesh) {
    let n = m.halfedges.len();
    let e = r.below(n);
    match r.below(8) {
        0 | 1 => m.halfedges.fill(EMPTY),
        2 => {
            let most = 1 + r.below(n);
            for _ in 0..most {
                m.halfedges[r.below(n)] = EMPTY;
            }
        }
        3 => {
            // Both sides forgotten.
            let f = m.halfedges[e] as usize;
            m.halfedges[e] = EMPTY;
            if f < n {
                m.halfedges[f] = EMPTY;
            }
        }
        4 => {
            let any = r.below(n) as u32;
            m.halfedges[e] = r.pick(&[any, 0, e as u32, n as u32 - 1, n as u32, EMPTY - 1]);
        }
        5 => {
            let f = r.below(n);
            m.halfedges.swap(e, f);
        }
        6 => m.halfedges.rotate_left(1),
        _ => m.halfedges.iter_mut().for_each(|h| *h = r.below(n + 1) as u32),
    }
}

fn hull(r: &mut Rng, m: &mut Mesh) {
    let (h, n) = (m.hull.len(), m.count());
    let i = r.below(h);
    let any = r.below(n) as u32;
    match r.below(10) {
        0 => m.hull.rotate_left(i),
        1 => m.hull.truncate(3 + r.below(h - 2)),
        2 => {
            // Up to the site count, where rule 1 still lets it by.
            let more = if n > h { 1 + r.below(n - h) } else { 0 };
            let with = r.pick(&[EMPTY, any, n as u32]);
            m.hull.extend(std::iter::repeat(with).take(more));
        }
        3 => m.hull[i] = r.pick(&[any, n as u32, EMPTY]),
        4 => m.hull[0] = r.pick(&[any, n as u32, EMPTY, 9]),
        5 => m.hull.reverse(),
        6 => m.hull[i] = m.hull[(i + 1) % h],
        7 if h > 3 => {
            m.hull.remove(i);
        }
        8 => m.hull = vec![any; 3],
        _ => m.hull.iter_mut().for_each(|s| *s = r.below(n) as u32),
    }
}

/// The sites of the triangles that are kept; the pairs that stood beside them stay as they are.
fn triangles(r: &mut Rng, m: &mut Mesh) {
    let t = m.triangle_count();
    let at = 3 * r.below(t);
    let n = m.count();
    let add = |m: &mut Mesh, sites: [u32; 3]| {
        m.triangles.extend(sites);
        m.halfedges.extend([EMPTY; 3]);
    };
    match r.below(14) {
        0 => m.triangles[at..at + 3].rotate_left(1),
        1 => m.triangles.swap(at, at + 1),
        2 if t > 1 => {
            m.triangles.drain(at..at + 3);
            m.halfedges.drain(at..at + 3);
        }
        3 | 4 => {
            // A triangle across two border edges.
            let h = m.hull.len();
            let i = r.below(h);
            let ear = [m.hull[(i + 2) % h], m.hull[(i + 1) % h], m.hull[i]];
            add(m, ear);
        }
        5 => {
            // On a border edge, with a new site.
            let h = m.hull.len();
            let i = r.below(h);
            let sites = [m.hull[(i + 1) % h], m.hull[i], n as u32];
            add(m, sites);
            m.sites.extend([r.signed(), r.signed()]);
        }
        6 => {
            let sites = [0; 3].map(|_: i32| r.below(n) as u32);
            add(m, sites);
        }
        7 => m.triangles[at + r.below(3)] = r.below(n) as u32,
        8 => {
            let turn = r.below(3);
            let mut twin = [m.triangles[at], m.triangles[at + 1], m.triangles[at + 2]];
            twin.rotate_left(turn);
            if r.chance(1, 2) {
                twin.swap(0, 1);
            }
            add(m, twin);
        }
        9 => {
            // The diagonal of two triangles swapped, by the sites alone.
            let e = at + r.below(3);
            let f = m.halfedges[e] as usize;
            if f < m.triangles.len() {
                let (p, q) = (m.triangles[next(next(e))], m.triangles[next(next(f))]);
                (m.triangles[e], m.triangles[f]) = (q, p);
            }
        }
        10 => {
            // The triangles in another order, the pairs in the old one.
            let other = 3 * r.below(t);
            (0..3).for_each(|i| m.triangles.swap(at + i, other + i));
        }
        11 => {
            // A closed surface alone.
            let steps = r.below(4);
            let (part, k) = topology::closed(r, steps);
            (m.triangles, m.halfedges) = (part.triangles, part.halfedges);
            m.sites.resize(2 * (k as usize).max(n), 0.5);
        }
        _ => damage::surface(r, m),
    }
}
