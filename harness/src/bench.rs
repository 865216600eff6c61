//! Meshes for timing, and the Rust's time on them.

use crate::generate::delaunay::{triangulate, Whole};
use crate::generate::rng::Rng;
use crate::generate::topology::{self, Topology};
use crate::mesh::{Area, Mesh, EMPTY};
use crate::rust;
use source::cell_builder::CellBuilder;
use source::ClipBehavior;

fn mesh(t: Topology, sites: Vec<f64>) -> Mesh {
    Mesh { sites, triangles: t.triangles, halfedges: t.halfedges, hull: t.hull }
}

/// Sites at random over the box's square, triangles as the sweep leaves them or shuffled.
pub fn uniform(n: usize, shuffled: bool) -> Mesh {
    let r = &mut Rng::new(5, n as u64);
    let reach = 1i64 << 26;
    let points: Vec<Whole> = (0..n).map(|_| (r.range(-reach, reach), r.range(-reach, reach))).collect();
    let mut t = triangulate(&points).unwrap();
    if shuffled {
        topology::shuffle_triangles(r, &mut t);
    }
    let sites = points.iter().flat_map(|p| [p.0, p.1]).map(|c| c as f64 / reach as f64).collect();
    mesh(t, sites)
}

fn on_circle(i: usize, n: usize, radius: f64) -> [f64; 2] {
    // Falling angles: left-turning with y downward.
    let a = -std::f64::consts::TAU * i as f64 / n as f64;
    [radius * a.cos(), radius * a.sin()]
}

/// The sites 0 to n - 1 round a convex border, cut into a zigzag of n - 2 triangles.
fn zigzag(n: usize) -> Topology {
    let mut t = Topology::default();
    let (mut low, mut high) = (0u32, n as u32 - 1);
    let mut side = EMPTY; // the half-edge from high to low that the next triangle is put on
    let mut left = true;
    while high - low >= 2 {
        if left {
            let e = t.add([low, low + 1, high], [EMPTY, EMPTY, EMPTY]);
            t.link(e + 2, side);
            side = e + 1;
            low += 1;
        } else {
            let e = t.add([low, high - 1, high], [EMPTY, EMPTY, EMPTY]);
            t.link(e + 2, side);
            side = e;
            high -= 1;
        }
        left = !left;
    }
    t.hull = (0..n as u32).collect();
    t
}

/// All sites on one circle: every extension is searched among all before it.
pub fn circle(n: usize) -> Mesh {
    mesh(zigzag(n), (0..n).flat_map(|i| on_circle(i, n, 0.5)).collect())
}

/// Two long rows of sites close together.
pub fn strip(n: usize) -> Mesh {
    let half = n / 2;
    let x = |i: usize| 1.8 * (i as f64 / half as f64) - 0.9;
    let mut sites = Vec::new();
    // Down one row and back along the other, left-turning with y downward.
    for i in 0..half {
        sites.extend([x(i), 0.001]);
    }
    for i in (0..half).rev() {
        sites.extend([x(i) + 0.3 / half as f64, -0.001]);
    }
    mesh(zigzag(2 * half), sites)
}

/// A site amid n - 1 others whose cell holds the whole box: it stays empty and is tried from each of its half-edges.
pub fn hub(n: usize) -> Mesh {
    let ring = n as u32 - 1;
    let mut t = Topology::default();
    for i in 0..ring {
        let before = if i == 0 { EMPTY } else { 3 * i - 1 };
        t.add([0, 1 + i, 1 + (i + 1) % ring], [before, EMPTY, EMPTY]);
    }
    t.link(0, 3 * ring - 1);
    t.hull = (1..=ring).collect();
    let mut sites = vec![0.0, 0.0];
    sites.extend((0..ring as usize).flat_map(|i| on_circle(i, ring as usize, 0.9)));
    mesh(t, sites)
}

pub fn wide_box() -> Area {
    Area { x: 0.0, y: 0.0, width: 2.0, height: 2.0 }
}

pub fn small_box() -> Area {
    Area { x: 0.01, y: 0.02, width: 0.1, height: 0.1 }
}

extern "C" {
    fn clock_gettime(clock: i32, now: *mut [i64; 2]) -> i32;
}

/// The processor time of this thread in nanoseconds: other programs on the machine do not count.
fn now() -> u64 {
    let mut t = [0; 2];
    unsafe { clock_gettime(3, &mut t) };
    t[0] as u64 * 1_000_000_000 + t[1] as u64
}

/// One build by the Rust with nothing round it, for a count of instructions.
#[no_mangle]
#[inline(never)]
pub fn rust_build(lent: &rust::Lent, area: &Area) -> usize {
    let centers = lent.circumcenters();
    CellBuilder::new(&lent.mesh, &lent.sites, centers, rust::area(area), ClipBehavior::Clip).build().vertices.len()
}

/// Nanoseconds of the Rust's circumcenters, of its whole build, circumcenters included, without any check, and of that and its freeing, which a caller pays too.
pub fn rust_once(lent: &rust::Lent, area: &Area) -> [u64; 3] {
    let bounds = rust::area(area);
    let start = now();
    let centers = lent.circumcenters();
    let middle = now();
    let built = CellBuilder::new(&lent.mesh, &lent.sites, centers, bounds, ClipBehavior::Clip).build();
    let end = now();
    std::hint::black_box(&built.cells);
    drop(built);
    let freed = now();
    [middle - start, end - start, freed - start]
}
