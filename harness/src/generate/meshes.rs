//! Sound meshes: real Delaunay ones and stranger ones that the rules accept too.

use super::delaunay::{triangulate, Whole};
use super::floats;
use super::rng::Rng;
use super::topology::{self, flip, flippable, Topology};
use crate::mesh::Mesh;
use crate::text::power;

/// Whole points at random.
fn scattered(r: &mut Rng, n: usize, reach: i64) -> Vec<Whole> {
    (0..n).map(|_| (r.range(-reach, reach), r.range(-reach, reach))).collect()
}

fn grid(r: &mut Rng) -> Vec<Whole> {
    let (w, h) = (r.range(2, 6), r.range(2, 6));
    let step = r.range(1, 3);
    let mut list: Vec<Whole> = (0..w * h).map(|i| ((i % w - w / 2) * step, (i / w - h / 2) * step)).collect();
    if r.chance(1, 3) {
        list.retain(|_| r.chance(4, 5));
    }
    list
}

/// Points exactly on one circle, some with a point or two inside.
fn circle(r: &mut Rng) -> Vec<Whole> {
    let radius: i64 = r.pick(&[5, 25, 65, 325, 1105]);
    let mut all = Vec::new();
    for x in -radius..=radius {
        let rest = radius * radius - x * x;
        let y = (rest as f64).sqrt().round() as i64;
        if y * y == rest {
            all.push((x, y));
            if y != 0 {
                all.push((x, -y));
            }
        }
    }
    r.shuffle(&mut all);
    all.truncate(3 + r.below(30));
    for _ in 0..r.below(3) {
        all.push((r.range(-radius / 2, radius / 2), r.range(-radius / 2, radius / 2)));
    }
    all
}

fn clustered(r: &mut Rng) -> Vec<Whole> {
    let reach = 1 << 20;
    let mut list = Vec::new();
    for _ in 0..1 + r.below(4) {
        let (x, y) = (r.range(-reach, reach), r.range(-reach, reach));
        let spread = 1i64 << r.below(18);
        for _ in 0..1 + r.below(10) {
            list.push((x + r.range(-spread, spread), y + r.range(-spread, spread)));
        }
    }
    list
}

/// A thin strip: two long rows.
fn strip(r: &mut Rng) -> Vec<Whole> {
    let n = 2 + r.below(15) as i64;
    let gap = r.range(1, 4);
    (0..n).flat_map(|i| [(i * 16, 0), (i * 16 + 5 * (i % 3), gap)]).collect()
}

/// One point amid a ring of many.
fn hub(r: &mut Rng) -> Vec<Whole> {
    let n = 5 + r.below(25);
    let reach = 4096.0;
    let mut list = vec![(0, 0)];
    for i in 0..n {
        let a = 6.283185307179586 * (i as f64 + 0.3 * r.unit()) / n as f64;
        list.push(((reach * a.cos()) as i64, (reach * a.sin()) as i64));
    }
    list
}

fn points(r: &mut Rng) -> (Vec<Whole>, i64) {
    let size = |r: &mut Rng| if r.chance(3, 4) { 3 + r.below(9) } else { 3 + r.below(38) };
    match r.weighted(&[8, 6, 4, 3, 3, 3, 1, 1]) {
        0 => {
            let n = size(r);
            let reach = 1i64 << r.pick(&[10, 16, 26]);
            (scattered(r, n, reach), reach)
        }
        1 => {
            let n = size(r);
            let reach = r.pick(&[1, 2, 2, 3, 4, 8, 50]);
            (scattered(r, n, reach), reach)
        }
        2 => (grid(r), 4),
        3 => {
            let list = circle(r);
            let reach = list.iter().map(|p| p.0.abs().max(p.1.abs())).max().unwrap();
            (list, reach)
        }
        4 => (clustered(r), 1 << 20),
        5 => (strip(r), 128),
        6 => (hub(r), 4096),
        // A 1 km area surveyed to 10 m.
        _ => {
            let n = size(r);
            (scattered(r, n, 50), 50)
        }
    }
}

/// Whole points as floats: exact, or scaled and moved by any reals.
fn placed(r: &mut Rng, points: &[Whole], reach: i64) -> Vec<f64> {
    let unit = 1.0 / (reach.max(1) as f64);
    let (scale, x, y) = match r.weighted(&[6, 5, 5, 2, 2, 1]) {
        0 => (power(-(64 - (reach.max(1) as u64).leading_zeros() as i32)), 0.0, 0.0),
        1 => (power(-(r.below(3) as i32)), 0.0, 0.0),
        2 => (unit * (0.2 + r.unit()), 0.3 * r.signed(), 0.3 * r.signed()),
        3 => (10.0, 0.0, 0.0),
        4 => (unit * floats::between(r, -40, 40).abs(), r.signed(), r.signed()),
        _ => (unit * floats::between(r, -300, 90).abs(), 0.0, 0.0),
    };
    points.iter().flat_map(|p| [p.0 as f64 * scale + x, p.1 as f64 * scale + y]).collect()
}

/// Coordinates with no thought of any mesh.
fn anywhere(r: &mut Rng, n: usize) -> Vec<f64> {
    match r.weighted(&[4, 4, 2, 1]) {
        0 => (0..2 * n).map(|_| r.signed()).collect(),
        1 => (0..2 * n).map(|_| r.range(-4, 4) as f64 / 2.0).collect(),
        2 => (0..2 * n).map(|_| r.range(-2, 2) as f64).collect(),
        _ => (0..2 * n).map(|_| floats::admitted(r)).collect(),
    }
}

fn assemble(t: Topology, sites: Vec<f64>) -> Mesh {
    Mesh { sites, triangles: t.triangles, halfedges: t.halfedges, hull: t.hull }
}

fn delaunay_mesh(r: &mut Rng) -> (Topology, Vec<f64>) {
    loop {
        let (points, reach) = points(r);
        if let Some(t) = triangulate(&points) {
            return (t, placed(r, &points, reach));
        }
    }
}

fn grown_mesh(r: &mut Rng) -> (Topology, Vec<f64>) {
    let (start, n) = if r.chance(1, 8) { topology::torus_with_hole() } else { (topology::single(), 3) };
    let steps = if r.chance(1, 3) { r.below(30) } else { r.below(6) };
    let ears = r.below(6);
    let (t, n) = topology::grow(r, start, n, steps, ears);
    let sites = anywhere(r, n as usize);
    (t, sites)
}

/// One to three triangles: the fullest use of the room is here.
fn tiny_mesh(r: &mut Rng) -> (Topology, Vec<f64>) {
    let steps = r.below(3);
    let (t, n) = topology::grow(r, topology::single(), 3, steps, 2);
    let sites = (0..2 * n).map(|_| r.signed()).collect();
    (t, sites)
}

/// A sound mesh of 3 to some 60 sites. All rules up to 10 hold; circumcenters may be anything.
pub fn sound(r: &mut Rng) -> Mesh {
    let (mut t, mut sites) = match r.weighted(&[15, 5, 2]) {
        0 => delaunay_mesh(r),
        1 => grown_mesh(r),
        _ => tiny_mesh(r),
    };

    if r.chance(1, 6) {
        for _ in 0..1 + r.below(6) {
            let e = r.below(t.triangles.len());
            if flippable(&t, e) {
                flip(&mut t, e);
            }
        }
    }
    if r.chance(1, 6) {
        move_sites(r, &mut sites);
    }
    match r.below(16) {
        0 => sites.iter_mut().step_by(2).for_each(|x| *x = -*x),
        1 => sites.chunks_exact_mut(2).for_each(|c| c.swap(0, 1)),
        _ => {}
    }
    if r.chance(1, 12) {
        for _ in 0..1 + r.below(2) {
            let steps = r.below(3);
            let (part, n) = topology::closed(r, steps);
            t.append(&part, (sites.len() / 2) as u32);
            sites.extend(anywhere(r, n as usize));
        }
    }
    if r.chance(1, 10) {
        let extra = 1 + r.below(3);
        sites.extend(anywhere(r, extra));
    }
    if r.chance(1, 2) {
        let n = sites.len() / 2;
        let mut to: Vec<u32> = (0..n as u32).collect();
        r.shuffle(&mut to);
        topology::renumber_sites(&mut t, &to);
        let old = sites.clone();
        for s in 0..n {
            sites[2 * to[s] as usize] = old[2 * s];
            sites[2 * to[s] as usize + 1] = old[2 * s + 1];
        }
    }
    if r.chance(1, 2) {
        topology::shuffle_triangles(r, &mut t);
    }
    let turn = r.below(t.hull.len());
    t.hull.rotate_left(turn);
    assemble(t, sites)
}

/// Some or all sites moved a little, a lot, onto each other, or to the limits.
fn move_sites(r: &mut Rng, sites: &mut [f64]) {
    let n = sites.len() / 2;
    match r.below(8) {
        0 => {
            let by = floats::between(r, -50, -1).abs();
            sites.iter_mut().for_each(|x| *x += by * r.signed());
        }
        1 => {
            let s = 2 * r.below(n);
            sites[s] = r.signed();
            sites[s + 1] = r.signed();
        }
        2 => {
            let (a, b) = (r.below(n), r.below(n));
            sites[2 * a] = sites[2 * b];
            sites[2 * a + 1] = sites[2 * b + 1];
        }
        3 => {
            let (a, b) = (r.below(n), r.below(n));
            let by = power(r.pick(&[-50, -51, -52, -53, -60, -200, -537, -538, -540, -1074]));
            sites[2 * a] = sites[2 * b] + by * r.range(-1, 1) as f64;
            sites[2 * a + 1] = sites[2 * b + 1] + by * r.range(-1, 1) as f64;
        }
        4 => {
            let i = r.below(2 * n);
            sites[i] = floats::admitted(r);
        }
        5 => sites.iter_mut().for_each(|x| *x = (*x * 4.0).round() / 4.0),
        6 => {
            // On or beside the borders of the grid that the library inserts vertices by.
            let by = power(-32) + r.range(-1, 1) as f64 * power(-50);
            sites.iter_mut().for_each(|x| *x = (*x * 4.0).round() / 4.0 + by);
        }
        _ => {
            // A short hull edge beside the origin: its squares may underflow.
            let (a, b) = (r.below(n), r.below(n));
            let by = power(r.range(-560, -530) as i32);
            (sites[2 * a], sites[2 * a + 1]) = (0.0, 0.0);
            (sites[2 * b], sites[2 * b + 1]) = (by, r.pick(&[0.0, by]));
        }
    }
    sites.iter_mut().for_each(|x| *x = x.clamp(-power(100), power(100)));
}

/// A rectangle of sites moved a little off their grid, up to the largest count.
pub fn large(r: &mut Rng, w: usize, h: usize) -> Mesh {
    let t = topology::rectangle(w, h);
    let unit = 2.0 / w.max(h) as f64;
    let mut sites = Vec::with_capacity(2 * w * h);
    for y in 0..h {
        for x in 0..w {
            sites.push((x as f64 - w as f64 / 2.0 + 0.4 * r.signed()) * unit);
            sites.push((y as f64 - h as f64 / 2.0 + 0.4 * r.signed()) * unit);
        }
    }
    assemble(t, sites)
}
