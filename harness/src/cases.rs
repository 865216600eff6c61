//! One case: a mesh, a box, a question to each call, and the lengths of what is lent.

use crate::expect::Lengths;
use crate::generate::rng::Rng;
use crate::generate::{areas, damage, floats, meshes, topology};
use crate::mesh::{pt, Area, Mesh, Pt};

/// How long a slice is against the list that goes into it.
#[derive(Clone, Copy, Debug)]
pub enum Allowance {
    Nothing,
    One,
    OneShort,
    Exact,
    OneMore,
    Roomy,
}

impl Allowance {
    fn random(r: &mut Rng) -> Allowance {
        use Allowance::*;
        r.pick(&[Nothing, One, OneShort, Exact, OneMore, Roomy])
    }
    pub fn length(self, whole: usize) -> usize {
        match self {
            Allowance::Nothing => 0,
            Allowance::One => 1,
            Allowance::OneShort => whole.saturating_sub(1),
            Allowance::Exact => whole,
            Allowance::OneMore => whole + 1,
            Allowance::Roomy => whole + 5,
        }
    }
}

/// What is done to the offsets of sound cells before they are lent.
#[derive(Clone, Copy, Debug)]
pub enum Offsets {
    Sound,
    Short,
    Long,
    FirstNotZero,
    Falls,
    PastTheEnd,
    None,
    One,
}

#[derive(Clone, Debug)]
pub struct Case {
    pub mesh: Mesh,
    pub area: Area,
    pub site: u32,
    pub other: u32,
    pub to: Pt,
    pub pair: (u32, u32),
    pub work: usize,
    pub lengths: Lengths,
    pub allowances: [Allowance; 4],
    pub offsets: Offsets,
    pub offset_place: usize,
}

fn lengths(r: &mut Rng, m: &Mesh) -> Lengths {
    let mut l = Lengths::exact(m);
    let parts: [&mut usize; 5] = [&mut l.work, &mut l.floats, &mut l.indexes, &mut l.offsets, &mut l.counts];
    match r.below(8) {
        // One of the five one short (for the vertices: one float short), or none at all.
        0 => {
            let i = r.below(5);
            for (j, p) in parts.into_iter().enumerate() {
                if i == j {
                    *p = if r.chance(1, 6) { 0 } else { p.saturating_sub(1) };
                }
            }
        }
        1 | 2 => {
            for p in parts {
                *p += r.below(4);
            }
        }
        _ => {}
    }
    l
}

impl Case {
    pub fn random(seed: u64, index: u64) -> Case {
        let r = &mut Rng::new(seed, index);
        let mut mesh = meshes::sound(r);
        if r.chance(1, 5) {
            damage::any(r, &mut mesh);
        }
        Case::about(r, mesh)
    }

    /// Questions about a mesh.
    pub fn about(r: &mut Rng, mesh: Mesh) -> Case {
        let area = if r.chance(1, 30) || mesh.sites.len() < 2 || mesh.sites.iter().any(|x| !x.is_finite()) {
            areas::refused(r)
        } else if !crate::expect::Facts::of(&mesh).accepted() {
            Area { x: 0.0, y: 0.0, width: 2.0, height: 2.0 }
        } else {
            areas::sound(r, &mesh)
        };
        let n = mesh.count().max(1);
        let site = |r: &mut Rng| match r.below(20) {
            0 => n as u32,
            1 => u32::MAX,
            _ => r.below(n) as u32,
        };
        let to = match r.below(12) {
            0 => pt(floats::refused(r), 0.0),
            1 => pt(0.0, floats::refused(r)),
            2 => pt(floats::admitted(r), floats::admitted(r)),
            3 | 4 => pt(r.range(-4, 4) as f64 / 2.0, r.range(-4, 4) as f64 / 2.0),
            5 | 6 if mesh.count() > 0 => mesh.site(r.below(mesh.count())),
            _ => pt(2.0 * r.signed(), 2.0 * r.signed()),
        };
        let t = mesh.triangle_count().max(1);
        let work = match r.below(12) {
            0 => mesh.count().saturating_sub(1),
            1 => 0,
            2 | 3 => mesh.count() + 1 + r.below(3),
            _ => mesh.count(),
        };
        use Offsets::*;
        Case {
            area,
            site: site(r),
            other: site(r),
            to,
            pair: triangle_pair(r, &mesh, t),
            work,
            lengths: lengths(r, &mesh),
            allowances: [(); 4].map(|_| Allowance::random(r)),
            offsets: r.pick(&[Sound, Sound, Sound, Sound, Sound, Sound, Short, Long, FirstNotZero, Falls, PastTheEnd, None, One]),
            offset_place: r.below(n + 1),
            mesh,
        }
    }

    /// The offsets of the cells as this case lends them.
    pub fn lent_offsets(&self, cells: &[Vec<u32>]) -> (Vec<u32>, Vec<u32>) {
        let mut offsets = vec![0u32];
        let mut entries = Vec::new();
        for c in cells {
            entries.extend(c);
            offsets.push(entries.len() as u32);
        }
        let place = self.offset_place.min(offsets.len() - 1);
        match self.offsets {
            Offsets::Sound => {}
            Offsets::Short => {
                offsets.pop();
            }
            Offsets::Long => offsets.push(entries.len() as u32),
            Offsets::FirstNotZero => offsets[0] = 1,
            Offsets::Falls => offsets[place] = offsets[place].wrapping_sub(1),
            Offsets::PastTheEnd => offsets[place] = entries.len() as u32 + 1,
            Offsets::None => offsets.clear(),
            Offsets::One => offsets.truncate(1),
        }
        (offsets, entries)
    }

    /// Cases at the limits of the counts, named.
    pub fn limits(seed: u64) -> Vec<(&'static str, Case)> {
        use Offsets::Sound;
        let r = &mut Rng::new(seed, u64::MAX);
        let mut list = Vec::new();
        let mut ask = |name, mesh: Mesh| {
            let r = &mut Rng::new(seed, list.len() as u64);
            let mut case = Case::about(r, mesh);
            case.area = Area { x: 0.1, y: -0.2, width: 1.5, height: 1.25 };
            (case.site, case.other, case.offsets) = (5, 6, Sound);
            case.work = case.mesh.count();
            case.lengths = Lengths::exact(&case.mesh);
            list.push((name, case));
        };
        let most = meshes::large(r, 256, 256);
        let mut more = most.clone();
        more.sites.extend([0.0, 0.0]);
        let mut spare = meshes::large(r, 255, 257);
        spare.sites.extend([0.25, 0.25]);
        ask("65,536 sites", most);
        ask("65,536 sites, one in no triangle", spare);
        ask("65,537 sites", more);
        let handled = |k: usize| {
            let (t, to, n) = topology::with_handles(261, 261, k);
            let mut sites = vec![0.0; 2 * n];
            for s in 0..261 * 261 {
                let at = 2 * to[s] as usize;
                (sites[at], sites[at + 1]) = ((s % 261) as f64 / 130.0 - 1.0, (s / 261) as f64 / 130.0 - 1.0);
            }
            Mesh { sites, triangles: t.triangles, halfedges: t.halfedges, hull: t.hull }
        };
        ask("131,072 triangles", handled(2064));
        ask("131,074 triangles", handled(2063));
        let three = Mesh {
            sites: vec![0.0, 0.0, 0.0, 1.0, 1.0, 0.0],
            triangles: vec![0, 1, 2],
            halfedges: vec![u32::MAX; 3],
            hull: vec![0, 1, 2],
        };
        let mut two = three.clone();
        two.sites.truncate(4);
        let mut short_hull = three.clone();
        short_hull.hull.pop();
        let mut long_hull = three.clone();
        long_hull.hull.push(0);
        ask("3 sites", three);
        ask("2 sites", two);
        ask("hull of 2", short_hull);
        ask("hull above the sites", long_hull);
        ask("nothing at all", Mesh::default());
        list
    }
}

/// Two triangles, most often side by side.
fn triangle_pair(r: &mut Rng, m: &Mesh, t: usize) -> (u32, u32) {
    let a = r.below(t + 1) as u32;
    let e = 3 * a as usize + r.below(3);
    match m.halfedges.get(e) {
        Some(&h) if r.chance(2, 3) && h != u32::MAX => (a, h / 3),
        _ if r.chance(1, 4) => (a, u32::MAX),
        _ => (a, r.below(t + 2) as u32),
    }
}
