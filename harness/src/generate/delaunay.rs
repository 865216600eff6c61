//! A small Delaunay triangulator on whole coordinates of magnitude at most 2^26, with exact predicates:
//! points are taken from left to right onto the growing hull, and edges flipped until each is sound.

use super::topology::{flip, Topology};
use crate::mesh::{next, EMPTY};

pub type Whole = (i64, i64);

/// Above 0 where c lies left of the line from a to b, y growing upward.
fn turn(a: Whole, b: Whole, c: Whole) -> i64 {
    (b.0 - a.0) * (c.1 - a.1) - (b.1 - a.1) * (c.0 - a.0)
}

/// Above 0 where d lies strictly inside the circle of the left-turning a, b, c.
fn in_circle(a: Whole, b: Whole, c: Whole, d: Whole) -> i128 {
    let row = |p: Whole| {
        let (x, y) = ((p.0 - d.0) as i128, (p.1 - d.1) as i128);
        (x, y, x * x + y * y)
    };
    let (a, b, c) = (row(a), row(b), row(c));
    a.0 * (b.1 * c.2 - c.1 * b.2) - a.1 * (b.0 * c.2 - c.0 * b.2) + a.2 * (b.0 * c.1 - c.0 * b.1)
}

/// Triangles, pairs and hull in the source's direction (left-turning with y downward), or none where all points lie on
/// one line. A point that repeats an earlier one stands in no triangle.
pub fn triangulate(given: &[Whole]) -> Option<Topology> {
    // The source counts y downward, so its direction is left-turning in the mirrored plane.
    let points: Vec<Whole> = given.iter().map(|p| (p.0, -p.1)).collect();
    let mut order: Vec<usize> = (0..points.len()).collect();
    order.sort_by_key(|&i| points[i]);
    order.dedup_by_key(|i| points[*i]);
    if order.len() < 3 {
        return None;
    }
    let at = |i: usize| points[i];
    let k = (2..order.len()).find(|&k| turn(at(order[0]), at(order[1]), at(order[k])) != 0)?;

    let mut s = Sweep {
        points: &points,
        t: Topology::default(),
        after: vec![0; points.len()],
        before: vec![0; points.len()],
        border: vec![0; points.len()],
        stack: Vec::new(),
    };
    let mut chain: Vec<usize> = order[..k].to_vec();
    let apex = order[k];
    if turn(at(chain[0]), at(chain[1]), at(apex)) < 0 {
        chain.reverse();
    }
    let mut side = EMPTY;
    for w in chain.windows(2) {
        let e = s.t.add([w[0] as u32, w[1] as u32, apex as u32], [EMPTY, EMPTY, side]);
        s.border[w[0]] = e;
        side = e + 1;
    }
    s.border[chain[k - 1]] = side;
    s.border[apex] = 2;
    chain.push(apex);
    for i in 0..chain.len() {
        s.join(chain[i], chain[(i + 1) % chain.len()]);
    }
    for e in 0..s.t.triangles.len() {
        s.stack.push(e as u32);
    }
    s.settle();
    let mut last = apex;
    for &p in &order[k + 1..] {
        s.insert(last, p);
        last = p;
    }
    s.t.hull.push(last as u32);
    let mut v = s.after[last];
    while v != last {
        s.t.hull.push(v as u32);
        v = s.after[v];
    }
    Some(s.t)
}

struct Sweep<'a> {
    points: &'a [Whole],
    t: Topology,
    after: Vec<usize>,
    before: Vec<usize>,
    /// The unpaired half-edge that starts at a hull point.
    border: Vec<u32>,
    stack: Vec<u32>,
}

impl Sweep<'_> {
    fn join(&mut self, a: usize, b: usize) {
        self.after[a] = b;
        self.before[b] = a;
    }

    /// p is greater than all before it and `q` the greatest of them, so the hull edges that p sees stand round q.
    fn insert(&mut self, q: usize, p: usize) {
        let sees = |s: &Self, a: usize, b: usize| turn(s.points[a], s.points[b], s.points[p]) < 0;
        let mut right = q;
        let mut spoke = EMPTY; // the newest half-edge from p to `right`
        let mut first = EMPTY; // the half-edge from q to p
        while sees(self, right, self.after[right]) {
            let n = self.after[right];
            let e = self.t.add([n as u32, right as u32, p as u32], [self.border[right], spoke, EMPTY]);
            if first == EMPTY {
                first = e + 1;
            }
            spoke = e + 2;
            right = n;
            self.stack.extend([e, e + 1, e + 2]);
        }
        let mut left = q;
        let mut back = first; // the newest half-edge from `left` to p
        while sees(self, self.before[left], left) {
            let b = self.before[left];
            let e = self.t.add([left as u32, b as u32, p as u32], [self.border[b], EMPTY, back]);
            if spoke == EMPTY {
                spoke = e + 2;
            }
            back = e + 1;
            left = b;
            self.stack.extend([e, e + 1, e + 2]);
        }
        self.border[p] = spoke;
        self.border[left] = back;
        self.join(left, p);
        self.join(p, right);
        self.settle();
    }

    fn settle(&mut self) {
        while let Some(e) = self.stack.pop() {
            let f = self.t.halfedges[e as usize];
            if f == EMPTY {
                continue;
            }
            let p = |h: usize| self.points[self.t.triangles[h] as usize];
            let (e, f) = (e as usize, f as usize);
            if in_circle(p(e), p(next(e)), p(next(next(e))), p(next(next(f)))) > 0 {
                flip(&mut self.t, e);
                for h in [e, f] {
                    let outer = [h, next(h), next(next(h))];
                    for o in outer {
                        if self.t.halfedges[o] == EMPTY {
                            self.border[self.t.triangles[o] as usize] = o as u32;
                        } else {
                            self.stack.push(o as u32);
                        }
                    }
                }
            }
        }
    }
}
