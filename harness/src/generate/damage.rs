//! One fault put into a sound mesh, so that each refusal from 1 to 10 comes up, alone or among others.

use super::floats;
use super::rng::Rng;
use super::topology::{self, Topology};
use crate::mesh::{next, Mesh, EMPTY};

/// Breaks the mesh somehow; what rule is broken is for the checker to say.
pub fn any(r: &mut Rng, m: &mut Mesh) {
    match r.weighted(&[3, 2, 4, 6, 6, 6, 2]) {
        0 => counts(r, m),
        1 => {
            let i = r.below(m.sites.len());
            m.sites[i] = floats::refused(r);
        }
        2 => triangle(r, m),
        3 => pairing(r, m),
        4 => hull(r, m),
        5 => surface(r, m),
        _ => {
            any(r, m);
            if !m.sites.is_empty() && !m.triangles.is_empty() && !m.halfedges.is_empty() && !m.hull.is_empty() {
                any(r, m);
            }
        }
    }
}

/// Several offenders of one rule from 6 to 10, so that the lowest is told from the rest.
pub fn several(r: &mut Rng, m: &mut Mesh) {
    let which = r.below(6);
    for _ in 0..2 + r.below(3) {
        match which {
            0 => {
                let i = r.below(m.sites.len());
                m.sites[i] = floats::refused(r);
            }
            1 => triangle(r, m),
            2 => pairing(r, m),
            3 => hull(r, m),
            4 => along_the_border(r, m),
            _ => closed_at_a_site(r, m, None),
        }
    }
    if which > 3 && r.chance(1, 2) {
        shuffle(r, m);
    }
}

/// Another order of the triangles.
fn shuffle(r: &mut Rng, m: &mut Mesh) {
    let mut t = Topology { triangles: m.triangles.clone(), halfedges: m.halfedges.clone(), hull: Vec::new() };
    topology::shuffle_triangles(r, &mut t);
    (m.triangles, m.halfedges) = (t.triangles, t.halfedges);
}

/// A triangle more, unpaired, of which one half-edge runs as an unpaired one does.
fn along_the_border(r: &mut Rng, m: &mut Mesh) {
    let open: Vec<usize> = (0..m.halfedges.len()).filter(|&e| m.halfedges[e] == EMPTY).collect();
    if !open.is_empty() {
        let e = r.pick(&open);
        m.triangles.extend([m.triangles[e], m.triangles[next(e)], m.triangles[next(next(e))]]);
        m.halfedges.extend([EMPTY; 3]);
    }
}

/// A closed part that shares one site with the rest: the given one, or any.
fn closed_at_a_site(r: &mut Rng, m: &mut Mesh, at: Option<u32>) {
    let first = m.count() as u32;
    let mut t = Topology { triangles: m.triangles.clone(), halfedges: m.halfedges.clone(), hull: Vec::new() };
    let steps = r.below(3);
    let (part, n) = topology::closed(r, steps);
    t.append(&part, first);
    m.sites.extend((0..2 * n).map(|_| r.signed()));
    let from = first + r.below(n as usize) as u32;
    let to = at.unwrap_or_else(|| r.below(first as usize) as u32);
    t.triangles.iter_mut().filter(|s| **s == from).for_each(|s| *s = to);
    (m.triangles, m.halfedges) = (t.triangles, t.halfedges);
}

/// Breaks a fan of a sound mesh and no rule before 10: an inner site's number replaced by another's, a closed part at a site in use,
/// or two closed parts that share a site of their own.
pub fn fan(r: &mut Rng, m: &mut Mesh) {
    let mut used = m.triangles.clone();
    used.sort_unstable();
    used.dedup();
    let at = r.pick(&used);
    match r.below(3) {
        0 if replaced(r, m, &used) => {}
        0 | 1 => closed_at_a_site(r, m, Some(at)),
        _ => {
            let own = m.count() as u32;
            m.sites.extend([r.signed(), r.signed()]);
            closed_at_a_site(r, m, Some(own));
            closed_at_a_site(r, m, Some(own));
        }
    }
    if r.chance(1, 2) {
        shuffle(r, m);
    }
}

/// An inner site's number replaced by one in use that stands in none of its triangles; false where there are none such.
fn replaced(r: &mut Rng, m: &mut Mesh, used: &[u32]) -> bool {
    let inner: Vec<u32> = used.iter().copied().filter(|s| !m.hull.contains(s)).collect();
    if inner.is_empty() {
        return false;
    }
    let from = r.pick(&inner);
    let beside: Vec<u32> = m.triangles.chunks_exact(3).filter(|t| t.contains(&from)).flatten().copied().collect();
    let far: Vec<u32> = used.iter().copied().filter(|s| !beside.contains(s)).collect();
    if far.is_empty() {
        return false;
    }
    let to = r.pick(&far);
    m.triangles.iter_mut().filter(|s| **s == from).for_each(|s| *s = to);
    true
}

/// Lengths at and about their limits.
fn counts(r: &mut Rng, m: &mut Mesh) {
    match r.below(10) {
        0 => {
            m.sites.pop();
        }
        1 => m.sites.truncate(r.below(5)),
        2 => {
            m.triangles.pop();
        }
        3 => {
            m.halfedges.pop();
        }
        4 => m.halfedges.push(EMPTY),
        5 => {
            m.triangles.clear();
            m.halfedges.clear();
        }
        6 => m.hull.truncate(r.below(3)),
        7 => {
            while m.hull.len() <= m.count() {
                m.hull.push(0);
            }
        }
        8 => {
            m.triangles.pop();
            m.halfedges.pop();
        }
        _ => m.sites.push(0.0),
    }
}

fn triangle(r: &mut Rng, m: &mut Mesh) {
    let e = r.below(m.triangles.len());
    m.triangles[e] = match r.below(4) {
        0 => m.triangles[next(e).min(m.triangles.len() - 1)],
        1 => m.count() as u32,
        2 => EMPTY,
        _ => r.below(m.count()) as u32,
    };
}

fn pairing(r: &mut Rng, m: &mut Mesh) {
    let n = m.halfedges.len();
    let e = r.below(n);
    match r.below(5) {
        0 => m.halfedges[e] = EMPTY,
        1 => m.halfedges[e] = r.below(n) as u32,
        2 => m.halfedges[e] = n as u32 + r.below(2) as u32,
        3 => m.halfedges[e] = e as u32,
        _ => {
            // Unpaired on both sides: the pairing stays sound, the hull does not.
            let f = m.halfedges[e];
            m.halfedges[e] = EMPTY;
            if (f as usize) < n {
                m.halfedges[f as usize] = EMPTY;
            }
        }
    }
}

fn hull(r: &mut Rng, m: &mut Mesh) {
    let h = m.hull.len();
    if h == 0 {
        return; // earlier damage has taken all of it
    }
    let i = r.below(h);
    match r.below(8) {
        0 => m.hull[i] = m.hull[(i + 1) % h],
        1 => m.hull[i] = m.count() as u32,
        2 => m.hull[i] = EMPTY,
        3 => m.hull[i] = r.below(m.count()) as u32,
        4 => {
            m.hull.remove(i);
        }
        5 => m.hull.reverse(),
        6 => {
            let j = r.below(h);
            m.hull.swap(i, j);
        }
        _ => m.hull.insert(i, r.below(m.count()) as u32),
    }
}

/// Surfaces that are no disc: a closed part that shares one site, two discs, a bow-tie, an annulus.
pub fn surface(r: &mut Rng, m: &mut Mesh) {
    let first = m.count() as u32;
    let mut t = Topology { triangles: m.triangles.clone(), halfedges: m.halfedges.clone(), hull: m.hull.clone() };
    match r.below(5) {
        0 | 1 => return closed_at_a_site(r, m, None),
        2 => {
            t.append(&topology::single(), first);
            m.sites.extend((0..6).map(|_| r.signed()));
            if r.chance(1, 2) {
                t.hull.extend([first, first + 1, first + 2]);
            }
        }
        3 => {
            // The second disc hangs on one hull site of the first.
            let at = m.hull[r.below(m.hull.len())];
            let i = m.hull.iter().position(|&s| s == at).unwrap();
            t.append(&topology::single(), first);
            m.sites.extend((0..6).map(|_| r.signed()));
            t.triangles.iter_mut().filter(|s| **s == first).for_each(|s| *s = at);
            t.hull.splice(i..i + 1, [at, first + 1, first + 2, at]);
        }
        _ => {
            // A square ring of 4 by 4 sites without its middle square.
            let whole = topology::rectangle(4, 4);
            let mut list: Vec<[u32; 3]> = whole.triangles.chunks_exact(3).map(|c| [c[0], c[1], c[2]]).collect();
            list.drain(8..10);
            let mut ring = Topology::default();
            for s in &list {
                ring.add(*s, [EMPTY; 3]);
            }
            for e in 0..ring.triangles.len() {
                for f in 0..e {
                    if ring.triangles[f] == ring.triangles[next(e)] && ring.triangles[e] == ring.triangles[next(f)] {
                        ring.link(e as u32, f as u32);
                    }
                }
            }
            ring.hull = whole.hull;
            t = ring;
            m.sites = (0..16).flat_map(|i| [(i % 4) as f64, (i / 4) as f64]).collect();
        }
    }
    (m.triangles, m.halfedges, m.hull) = (t.triangles, t.halfedges, t.hull);
}
