//! Triangles, pairs and hull without coordinates: grown, glued, flipped, renumbered.

use super::rng::Rng;
use crate::mesh::{next, EMPTY};

#[derive(Clone, Debug, Default)]
pub struct Topology {
    pub triangles: Vec<u32>,
    pub halfedges: Vec<u32>,
    pub hull: Vec<u32>,
}

impl Topology {
    /// Adds a triangle, pairs its half-edges both ways, and gives the number of the first.
    pub fn add(&mut self, sites: [u32; 3], pairs: [u32; 3]) -> u32 {
        let e = self.triangles.len() as u32;
        self.triangles.extend(sites);
        self.halfedges.extend([EMPTY; 3]);
        for i in 0..3 {
            self.link(e + i as u32, pairs[i]);
        }
        e
    }

    pub fn link(&mut self, e: u32, f: u32) {
        self.halfedges[e as usize] = f;
        if f != EMPTY {
            self.halfedges[f as usize] = e;
        }
    }

    /// Adds `other` with its sites counted from `first`; its hull is left out.
    pub fn append(&mut self, other: &Topology, first: u32) {
        let e = self.triangles.len() as u32;
        self.triangles.extend(other.triangles.iter().map(|s| s + first));
        self.halfedges.extend(other.halfedges.iter().map(|&h| if h == EMPTY { EMPTY } else { h + e }));
    }
}

/// Swaps the diagonal under the paired half-edge e: it then starts at the site opposite its pair.
pub fn flip(t: &mut Topology, e: usize) {
    let f = t.halfedges[e] as usize;
    let (before_e, before_f) = (next(next(e)), next(next(f)));
    let (p, q) = (t.triangles[before_e], t.triangles[before_f]);
    let (outer_e, outer_f) = (t.halfedges[before_e], t.halfedges[before_f]);
    t.triangles[e] = q;
    t.triangles[f] = p;
    t.link(e as u32, outer_f);
    t.link(f as u32, outer_e);
    t.link(before_e as u32, before_f as u32);
}

/// Whether a flip leaves three different sites in both triangles.
pub fn flippable(t: &Topology, e: usize) -> bool {
    let f = t.halfedges[e];
    f != EMPTY && f as usize / 3 != e / 3 && {
        let f = f as usize;
        t.triangles[next(next(e))] != t.triangles[next(next(f))]
    }
}

/// Triangles given by their sites, each half-edge paired with the first one that runs the other way and is still free,
/// and the hull read off the rest from the lowest; none where those form no single loop.
pub fn glue(triangles: &[[u32; 3]]) -> Option<Topology> {
    let mut t = Topology::default();
    for s in triangles {
        t.add(*s, [EMPTY; 3]);
    }
    for e in 0..t.triangles.len() {
        for f in 0..e {
            let opposite = t.triangles[f] == t.triangles[next(e)] && t.triangles[e] == t.triangles[next(f)];
            if opposite && t.halfedges[e] == EMPTY && t.halfedges[f] == EMPTY {
                t.link(e as u32, f as u32);
            }
        }
    }
    let open: Vec<usize> = (0..t.triangles.len()).filter(|&e| t.halfedges[e] == EMPTY).collect();
    if let Some(&first) = open.first() {
        let mut at = t.triangles[first];
        loop {
            t.hull.push(at);
            let e = open.iter().find(|&&e| t.triangles[e] == at)?;
            at = t.triangles[next(*e)];
            if at == t.hull[0] {
                break;
            }
            if t.hull.len() > open.len() {
                return None;
            }
        }
    }
    Some(t)
}

/// A disc (or what `start` is) with triangles put on border edges, each with a new site or across two border edges.
pub fn grow(r: &mut Rng, start: Topology, mut sites: u32, steps: usize, ears: usize) -> (Topology, u32) {
    let mut t = start;
    // The border as half-edges in the hull's order.
    let mut border: Vec<u32> = t
        .hull
        .iter()
        .map(|&s| (0..t.triangles.len()).find(|&e| t.triangles[e] == s && t.halfedges[e] == EMPTY).unwrap() as u32)
        .collect();
    for _ in 0..steps {
        let i = r.below(border.len());
        let j = (i + 1) % border.len();
        let (g, h) = (border[i], border[j]);
        let a = t.triangles[g as usize];
        let b = t.triangles[h as usize];
        let c = t.triangles[next(h as usize)];
        if r.chance(ears, 10) && border.len() > 3 {
            let e = t.add([c, b, a], [h, g, EMPTY]);
            border[i] = e + 2;
            border.remove(j);
        } else {
            let e = t.add([b, a, sites], [g, EMPTY, EMPTY]);
            sites += 1;
            border[i] = e + 1;
            border.insert(i + 1, e + 2);
        }
    }
    t.hull = border.iter().map(|&e| t.triangles[e as usize]).collect();
    (t, sites)
}

pub fn single() -> Topology {
    Topology { triangles: vec![0, 1, 2], halfedges: vec![EMPTY; 3], hull: vec![0, 1, 2] }
}

/// The torus on seven sites without one of its fourteen triangles.
pub fn torus_with_hole() -> (Topology, u32) {
    let mut list = Vec::new();
    for i in 0..7u32 {
        list.push([i, (i + 1) % 7, (i + 3) % 7]);
        list.push([i, (i + 3) % 7, (i + 2) % 7]);
    }
    list.pop();
    (glue(&list).unwrap(), 7)
}

/// A closed part on sites from 0: two triangles on three sites, then a site put into a triangle `steps` times.
pub fn closed(r: &mut Rng, steps: usize) -> (Topology, u32) {
    let mut list = vec![[0, 1, 2], [0, 2, 1]];
    let mut sites = 3;
    for _ in 0..steps {
        let [a, b, c] = list.swap_remove(r.below(list.len()));
        list.extend([[a, b, sites], [b, c, sites], [c, a, sites]]);
        sites += 1;
    }
    (glue(&list).unwrap(), sites)
}

/// A rectangle of w by h sites, each square cut in two.
pub fn rectangle(w: usize, h: usize) -> Topology {
    let mut t = Topology::default();
    let at = |x: usize, y: usize| (y * w + x) as u32;
    // Each square's first triangle has (x,y) (x,y+1) (x+1,y+1), its second (x,y) (x+1,y+1) (x+1,y).
    for y in 0..h - 1 {
        for x in 0..w - 1 {
            let square = 6 * (y * (w - 1) + x) as u32;
            let left = if x > 0 { square - 6 + 4 } else { EMPTY };
            let above = if y > 0 { square - 6 * (w - 1) as u32 + 1 } else { EMPTY };
            let e = t.add([at(x, y), at(x, y + 1), at(x + 1, y + 1)], [left, EMPTY, EMPTY]);
            t.add([at(x, y), at(x + 1, y + 1), at(x + 1, y)], [e + 2, EMPTY, above]);
        }
    }
    for y in 0..h - 1 {
        t.hull.push(at(0, y));
    }
    for x in 0..w - 1 {
        t.hull.push(at(x, h - 1));
    }
    for y in (1..h).rev() {
        t.hull.push(at(w - 1, y));
    }
    for x in (1..w).rev() {
        t.hull.push(at(x, 0));
    }
    t
}

/// New numbers for the sites: old site s becomes `to[s]`.
pub fn renumber_sites(t: &mut Topology, to: &[u32]) {
    for s in t.triangles.iter_mut().chain(t.hull.iter_mut()) {
        *s = to[*s as usize];
    }
}

/// Another order of the triangles, each turned by 0, 1 or 2.
pub fn shuffle_triangles(r: &mut Rng, t: &mut Topology) {
    let count = t.triangles.len() / 3;
    let mut order: Vec<usize> = (0..count).collect();
    r.shuffle(&mut order);
    let mut to = vec![0u32; 3 * count];
    for (new, &old) in order.iter().enumerate() {
        let turn = r.below(3);
        for i in 0..3 {
            to[3 * old + (i + turn) % 3] = (3 * new + i) as u32;
        }
    }
    let (triangles, halfedges) = (t.triangles.clone(), t.halfedges.clone());
    for e in 0..3 * count {
        t.triangles[to[e] as usize] = triangles[e];
        let h = halfedges[e];
        t.halfedges[to[e] as usize] = if h == EMPTY { EMPTY } else { to[h as usize] };
    }
}

/// k handles on a rectangle of w by h: each time two triangles far from the hull and from each other are taken out and
/// the two openings sewn together. Gives the new number of each old site and the count of sites left.
pub fn with_handles(w: usize, h: usize, k: usize) -> (Topology, Vec<u32>, usize) {
    let mut t = rectangle(w, h);
    let mut squares = Vec::new();
    for y in (1..h - 2).step_by(3) {
        for x in (1..w - 2).step_by(3) {
            squares.push(6 * (y * (w - 1) + x));
        }
    }
    let mut to: Vec<u32> = (0..(w * h) as u32).collect();
    let mut out = Vec::new();
    for i in 0..k {
        let (e, f) = (squares[i], squares[squares.len() - 1 - i]);
        // Half-edge e runs the other way to the glued f + 2, e + 1 to f + 1, e + 2 to f.
        for (a, b) in [(e, f), (e + 1, f + 2), (e + 2, f + 1)] {
            to[t.triangles[b] as usize] = t.triangles[a];
        }
        for (a, b) in [(e, f + 2), (e + 1, f + 1), (e + 2, f)] {
            let (a, b) = (t.halfedges[a], t.halfedges[b]);
            t.link(a, b);
        }
        out.extend([e / 3, f / 3]);
    }
    let mut left = 0;
    let mut number = vec![EMPTY; w * h];
    for s in 0..w * h {
        if to[s] as usize == s {
            number[s] = left;
            left += 1;
        }
    }
    let to: Vec<u32> = to.iter().map(|&s| number[s as usize]).collect();
    renumber_sites(&mut t, &to);
    let mut gone = vec![false; t.triangles.len() / 3];
    out.iter().for_each(|&x| gone[x] = true);
    let mut place = vec![EMPTY; t.triangles.len()];
    let mut kept = Topology { hull: t.hull.clone(), ..Topology::default() };
    for e in 0..t.triangles.len() {
        if !gone[e / 3] {
            place[e] = kept.triangles.len() as u32;
            kept.triangles.push(t.triangles[e]);
        }
    }
    for e in 0..t.triangles.len() {
        if !gone[e / 3] {
            let h = t.halfedges[e];
            kept.halfedges.push(if h == EMPTY { EMPTY } else { place[h as usize] });
        }
    }
    (kept, to, left as usize)
}
