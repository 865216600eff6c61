//! Boxes for a mesh: round it, across it, far off, tiny, huge, with a side through a site or a circumcenter.

use super::floats;
use super::rng::Rng;
use crate::mesh::{pt, Area, Mesh, Pt};
use crate::reference;
use crate::text::power;

fn extent(m: &Mesh) -> (Pt, Pt) {
    let (mut low, mut high) = (pt(f64::MAX, f64::MAX), pt(f64::MIN, f64::MIN));
    for c in m.sites.chunks_exact(2) {
        low = pt(low.x.min(c[0]), low.y.min(c[1]));
        high = pt(high.x.max(c[0]), high.y.max(c[1]));
    }
    (low, high)
}

/// A box that 3 admits.
pub fn sound(r: &mut Rng, m: &Mesh) -> Area {
    for _ in 0..20 {
        let a = attempt(r, m);
        if reference::box_sound(&a) {
            return a;
        }
    }
    Area { x: 0.0, y: 0.0, width: 2.0, height: 2.0 }
}

fn area(x: f64, y: f64, width: f64, height: f64) -> Area {
    Area { x, y, width, height }
}

fn attempt(r: &mut Rng, m: &Mesh) -> Area {
    let (low, high) = extent(m);
    let (w, h) = (high.x - low.x, high.y - low.y);
    let (cx, cy) = (low.x + w / 2.0, low.y + h / 2.0);
    let place = |r: &mut Rng| pt(low.x + w * r.unit(), low.y + h * r.unit());
    match r.weighted(&[6, 6, 4, 4, 4, 3, 3, 2, 2, 2, 3, 3, 1, 1, 2]) {
        0 => area(0.0, 0.0, 2.0, 2.0),
        1 => {
            let k = 0.5 + 2.0 * r.unit();
            area(cx, cy, w * k, h * k)
        }
        2 => {
            let p = place(r);
            area(p.x, p.y, w * r.unit(), h * r.unit())
        }
        3 => area(r.range(-4, 4) as f64 / 2.0, r.range(-4, 4) as f64 / 2.0, r.range(1, 8) as f64 / 2.0, r.range(1, 8) as f64 / 2.0),
        4 => through(r, m),
        5 => {
            let p = place(r);
            let k = power(-(r.below(60) as i32));
            area(p.x, p.y, w.max(1.0) * k, h.max(1.0) * k)
        }
        6 => {
            let far = r.pick(&[10.0, 1e3, 1e9, 1e10, 1e20]);
            area(cx + far * r.signed() * w, cy + far * r.signed() * h, w * (0.1 + r.unit()), h * (0.1 + r.unit()))
        }
        7 => {
            let k = r.pick(&[1e9, 5e9, 9e9, 1e10, 1.5e10, 1.9e10, 2e10, 2.1e10, 4e10, 1e12]);
            area(cx, cy, k, k * r.pick(&[1.0, 1.0, 0.5, 0.9]))
        }
        8 => area(0.0, 0.0, power(r.range(20, 100) as i32), power(r.range(20, 100) as i32)),
        9 => area(floats::admitted(r), floats::admitted(r), floats::admitted(r).abs(), floats::admitted(r).abs()),
        10 => around_site(r, m),
        11 => {
            // The sites' own extent, whole or moved by some steps of the tolerance.
            let k = r.range(-2, 2) as f64 * r.pick(&[0.0, power(-50), power(-51), power(-48)]);
            area(cx + k, cy, w, h)
        }
        12 => area(0.0, 0.0, power(r.range(-60, 0) as i32), power(r.range(-60, 0) as i32)),
        13 => corner_on_extension(r, m),
        // Among the extensions, where the edges between two of them cross the box as well.
        _ => area(r.signed() * 1e10, r.signed() * 1e10, r.unit() * 2e10, r.unit() * 2e10),
    }
}

/// A side, or a corner, through a circumcenter.
fn through(r: &mut Rng, m: &Mesh) -> Area {
    let c = reference::circumcenters(m);
    let p = c[r.below(c.len())];
    let any = 4.0 * r.unit();
    let (w, h) = (r.pick(&[0.5, 1.0, 2.0, 3.0, any]), r.pick(&[0.5, 1.0, 2.0, 3.0]));
    let sx = r.range(-1, 1) as f64;
    let sy = r.range(-1, 1) as f64;
    let y = if r.chance(1, 2) { p.y } else { r.range(-2, 2) as f64 / 2.0 };
    area(p.x + sx * w / 2.0, y + sy * h / 2.0, w, h)
}

/// A corner where a hull edge's extension falls.
fn corner_on_extension(r: &mut Rng, m: &Mesh) -> Area {
    let left = reference::leftmost(m);
    let edge = left[m.hull[r.below(m.hull.len())] as usize] as usize;
    let t: Vec<Pt> = (0..3).map(|i| m.site(m.triangles[edge / 3 * 3 + i] as usize)).collect();
    let p = reference::extension(m, edge, reference::circumcenter(t[0], t[1], t[2]));
    let size = power(r.range(10, 30) as i32);
    area(p.x + r.pick(&[-0.5, 0.5]) * size, p.y + r.pick(&[-0.5, 0.5]) * size, size, size)
}

fn around_site(r: &mut Rng, m: &Mesh) -> Area {
    let p = m.site(r.below(m.count()));
    let k = r.pick(&[1.0, 0.5, 0.125, 0.01]);
    area(p.x, p.y, k, k * r.pick(&[1.0, 2.0]))
}

/// A box that 3 refuses, each part of the rule in turn.
pub fn refused(r: &mut Rng) -> Area {
    let mut a = area(r.signed(), r.signed(), 1.0, 1.0);
    match r.below(9) {
        0 => a.x = floats::refused(r),
        1 => a.y = floats::refused(r),
        2 => a.width = floats::refused(r),
        3 => a.height = floats::refused(r),
        4 => a.width = r.pick(&[0.0, -0.0, -1.0, -power(-1074)]),
        5 => a.height = r.pick(&[0.0, -0.0, -1.0, -power(-1074)]),
        6 => (a.x, a.width) = (power(60), 1.0), // left and right fall together
        7 => (a.y, a.height) = (1.0, power(-60)),
        _ => a.width = power(-1074), // half of it is 0
    }
    if reference::box_sound(&a) {
        a.width = f64::NAN;
    }
    a
}
