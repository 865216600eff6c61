//! The grid profile (request 2026-12): a second program with exact whole numbers, from the request's text, and what the calls owe. The circle
//! is taken at its word here: its center as a fraction, and which of two places is nearer to it.

use crate::expect::padded;
use crate::generate::rng::Rng;
use crate::generate::topology::{self, flip, flippable, Topology};
use crate::generate::{damage, delaunay};
use crate::library::{Call, Difference, Library};
use crate::mesh::{next, Mesh, EMPTY};
use crate::reference;
use crate::tally;

const LIMIT: i32 = 8192;

/// Coordinates beyond the profile, the nearest and the farthest.
const BEYOND: [i32; 6] = [8193, -8193, i32::MIN, i32::MAX, 100_000, -16_384];

#[derive(Clone, Copy, Debug, PartialEq)]
pub enum Answer {
    Yes,
    Triangle(u32),
    Halfedge(u32),
    HullPlace(u32),
    Refused(u32),
}

impl Answer {
    fn numbers(self) -> [u32; 3] {
        match self {
            Answer::Yes => [0, 0, EMPTY],
            Answer::Triangle(t) => [0, 1, t],
            Answer::Halfedge(e) => [0, 2, e],
            Answer::HullPlace(i) => [0, 3, i],
            Answer::Refused(n) => [n, EMPTY, EMPTY],
        }
    }
}

type Place = (i128, i128);

fn less(a: Place, b: Place) -> Place {
    (a.0 - b.0, a.1 - b.1)
}

fn cross(a: Place, b: Place) -> i128 {
    a.0 * b.1 - a.1 * b.0
}

fn square(a: Place) -> i128 {
    a.0 * a.0 + a.1 * a.1
}

/// How the squared distances of d and of a from the center of the circle through a, b, c compare: below 0 where d is nearer. Seen from a the
/// center is u over w, and both are multiplied by w.
fn against_the_circle(a: Place, b: Place, c: Place, d: Place) -> i128 {
    let (b, c, d) = (less(b, a), less(c, a), less(d, a));
    let w = 2 * cross(b, c);
    let u = (c.1 * square(b) - b.1 * square(c), b.0 * square(c) - c.0 * square(b));
    square(less((d.0 * w, d.1 * w), u)) - square(u)
}

/// A mesh on the grid as it is lent, and how long the work slice and the floats' slice are.
#[derive(Clone, Debug)]
pub struct Case {
    pub grid: Vec<i32>,
    pub mesh: Mesh,
    pub work: usize,
    pub floats: usize,
}

impl Case {
    fn place(&self, s: u32) -> Place {
        (self.grid[2 * s as usize] as i128, self.grid[2 * s as usize + 1] as i128)
    }

    fn corners(&self, e: usize) -> [Place; 3] {
        [e, next(e), next(next(e))].map(|k| self.place(self.mesh.triangles[k]))
    }

    fn turn(&self, t: usize) -> i128 {
        let [a, b, c] = self.corners(3 * t);
        cross(less(b, a), less(c, a))
    }

    /// Of a paired half-edge: how its far site lies to the circle.
    fn far(&self, e: usize) -> Option<i128> {
        let p = self.mesh.halfedges[e];
        let [a, b, c] = self.corners(e);
        (p != EMPTY).then(|| against_the_circle(a, b, c, self.place(self.mesh.triangles[next(next(p as usize))])))
    }

    fn beyond(&self) -> bool {
        self.grid.iter().any(|&v| !(-LIMIT..=LIMIT).contains(&v))
    }

    /// 1, 2, 22, 7 to 10; then the lowest triangle that does not turn below 0; then the lowest half-edge whose far site is inside.
    pub fn answer(&self) -> Answer {
        if !reference::counts_sound(&self.mesh) {
            return Answer::Refused(1);
        }
        if self.work < self.grid.len() / 2 {
            return Answer::Refused(2);
        }
        if self.beyond() {
            return Answer::Refused(22);
        }
        match reference::topology(&self.mesh) {
            0 => {}
            n => return Answer::Refused(n),
        }
        if let Some(t) = (0..self.mesh.triangle_count()).find(|&t| self.turn(t) >= 0) {
            return Answer::Triangle(t as u32);
        }
        match (0..self.mesh.triangles.len()).find(|&e| self.far(e).is_some_and(|x| x < 0)) {
            Some(e) => Answer::Halfedge(e as u32),
            None => Answer::Yes,
        }
    }

    /// The same, and where it is yes the hull: the lowest place inside a run that turns right; then the second that begins a run of edges up.
    pub fn nearest_answer(&self) -> Answer {
        let answer = self.answer();
        if answer != Answer::Yes {
            return answer;
        }
        let h = self.mesh.hull.len();
        let at = |i: usize| self.place(self.mesh.hull[i % h]);
        let up = |i: usize| {
            let (dx, dy) = less(at(i + 1), at(i));
            32_768 * dy + dx
        };
        let right = |i: usize| up(i + h - 1).signum() == up(i).signum() && cross(less(at(i), at(i + h - 1)), less(at(i + 1), at(i))) > 0;
        let starts: Vec<usize> = (0..h).filter(|&i| up(i + h - 1) < 0 && up(i) > 0).collect();
        assert!(!starts.is_empty(), "edges up alone, or down alone, round a closed hull");
        match (0..h).find(|&i| right(i)).or(starts.get(1).copied()) {
            Some(i) => Answer::HullPlace(i as u32),
            None => Answer::Yes,
        }
    }

    /// The lowest site that no triangle names.
    fn unused(&self) -> u32 {
        let mut named = vec![false; self.grid.len() / 2];
        self.mesh.triangles.iter().for_each(|&s| named[s as usize] = true);
        named.iter().position(|named| !named).map_or(EMPTY, |s| s as u32)
    }

    /// The sites alone: 1, 2, 22.
    fn floats_answer(&self) -> u32 {
        let n = self.grid.len() / 2;
        match () {
            () if self.grid.len() % 2 != 0 || !(3..=65_536).contains(&n) => 1,
            () if self.floats < self.grid.len() => 2,
            () if self.beyond() => 22,
            () => 0,
        }
    }

    pub fn random(seed: u64, index: u64) -> Case {
        let r = &mut Rng::new(seed ^ 0x6772_6964, index);
        let (mut grid, mut t) = drawn(r);
        for _ in 0..r.pick(&[0, 0, 0, 0, 1, 1, 2, 5]) {
            let e = r.below(t.triangles.len());
            if flippable(&t, e) {
                flip(&mut t, e);
            }
        }
        if r.chance(1, 5) {
            moved(r, &mut grid);
        }
        if r.chance(1, 2) {
            topology::shuffle_triangles(r, &mut t);
        }
        let sites = grid.iter().map(|&v| v as f64).collect();
        let mut mesh = Mesh { sites, triangles: t.triangles, halfedges: t.halfedges, hull: t.hull };
        if r.chance(1, 3) {
            damage::any(r, &mut mesh);
        }
        // what was damaged is taken back to whole numbers; a float that rule 6 refuses becomes a number beyond the profile
        let whole = |x: f64| x.clamp(-8192.0, 8192.0) as i32;
        let mut grid: Vec<i32> = mesh.sites.iter().map(|&x| if reference::ordinary(x) { whole(x) } else { r.pick(&BEYOND) }).collect();
        if !grid.is_empty() && r.chance(1, 20) {
            let i = r.below(grid.len());
            grid[i] = r.pick(&BEYOND);
        }
        mesh.sites = grid.iter().map(|&v| v as f64).collect();
        let n = grid.len() / 2;
        let work = match r.below(12) {
            0 => n.saturating_sub(1 + r.below(2)),
            1..=3 => n + r.below(4),
            _ => n,
        };
        let floats = match r.below(12) {
            0 => grid.len().saturating_sub(1 + r.below(2)),
            1..=3 => grid.len() + r.below(4),
            _ => grid.len(),
        };
        Case { grid, mesh, work, floats }
    }

    /// The largest meshes: all coordinates of a square of sites 64 apart, with and without one that offends.
    pub fn limits() -> Vec<(&'static str, Case)> {
        let t = topology::rectangle(256, 256);
        let grid: Vec<i32> = (0..256).flat_map(|y| (0..256).flat_map(move |x| [64 * x - 8160, 64 * y - 8160])).collect();
        let mesh = |g: &[i32]| Mesh {
            sites: g.iter().map(|&v| v as f64).collect(),
            triangles: t.triangles.clone(),
            halfedges: t.halfedges.clone(),
            hull: t.hull.clone(),
        };
        let case = |g: Vec<i32>| Case { mesh: mesh(&g), work: 65_536, floats: 131_072, grid: g };
        let mut last = grid.clone();
        last[131_070] -= 1;
        last[131_071] -= 1;
        vec![("65,536 sites", case(grid)), ("65,536 sites, the last one moved in", case(last))]
    }
}

/// Places and their triangulation: many on one circle or on one line, at the limits, or anywhere.
fn drawn(r: &mut Rng) -> (Vec<i32>, Topology) {
    loop {
        let n = 3 + r.below(12);
        let places: Vec<(i64, i64)> = match r.below(6) {
            0 => (0..n).map(|_| (r.range(-2, 2), r.range(-2, 2))).collect(),
            1 => {
                let far = r.pick(&[5, 5 * 13, 5 * 13 * 25, 8192]);
                let on = [(far, 0), (0, far), (-far, 0), (0, -far)].into_iter();
                let by = |a: i64, b: i64, c: i64| if far % c == 0 { Some((a * far / c, b * far / c)) } else { None };
                let turned = |p: (i64, i64)| [p, (-p.0, p.1), (p.0, -p.1), (p.1, p.0), (-p.1, -p.0)];
                let more = [by(3, 4, 5), by(5, 12, 13), by(7, 24, 25), by(33, 56, 65)].into_iter().flatten().flat_map(turned);
                let mut all: Vec<(i64, i64)> = on.chain(more).collect();
                r.shuffle(&mut all);
                all.truncate(n);
                all.extend([(0, 0), (r.range(-far, far), r.range(-far, far))].into_iter().take(r.below(3)));
                all
            }
            2 => {
                let step = r.pick(&[1, 3, 1000, 4096]);
                (0..n).map(|i| ((i % 4) as i64 * step - 8192, (i / 4) as i64 * step - 8192)).collect()
            }
            3 => (0..n).map(|_| (r.pick(&[-8192, 8192, -8191, 0, 1]), r.pick(&[-8192, 8192, 8191, 0, -1]))).collect(),
            4 => (0..n).map(|i| if i % 3 > 0 { (i as i64, 2 * i as i64) } else { (r.range(-9, 9), r.range(-9, 9)) }).collect(),
            _ => (0..n).map(|_| (r.range(-8192, 8192), r.range(-8192, 8192))).collect(),
        };
        if let Some(t) = delaunay::triangulate(&places) {
            return (places.iter().flat_map(|p| [p.0 as i32, p.1 as i32]).collect(), t);
        }
    }
}

/// One site moved, one onto another, all mirrored, turned or drawn together.
fn moved(r: &mut Rng, grid: &mut [i32]) {
    let (a, b) = (2 * r.below(grid.len() / 2), 2 * r.below(grid.len() / 2));
    match r.below(6) {
        0 => {
            grid[a] = (grid[a] + r.range(-2, 2) as i32).clamp(-LIMIT, LIMIT);
            grid[a + 1] = (grid[a + 1] + r.range(-2, 2) as i32).clamp(-LIMIT, LIMIT);
        }
        1 => (grid[a], grid[a + 1]) = (r.range(-8192, 8192) as i32, r.range(-8192, 8192) as i32),
        2 => (grid[a], grid[a + 1]) = (grid[b], grid[b + 1]),
        3 => grid.iter_mut().step_by(2).for_each(|x| *x = -*x),
        4 => grid.iter_mut().skip(1).step_by(2).for_each(|y| *y /= 2),
        _ => grid.chunks_exact_mut(2).for_each(|c| (c[0], c[1]) = (-c[0], -c[1])),
    }
}

/// What must come up in a run.
const SEEN: [&str; 14] = [
    "nearest", "nearest, a site unused", "a hull place that turns right", "a hull place that begins a second run", "a hull place, a site unused", "yes", "a triangle", "a flat triangle", "a half-edge", "yes, a far site on the circle", "yes, a coordinate at the limit",
    "22 and a broken mesh", "a triangle, and a far site inside", "more room than needed",
];

pub const NUMBERS: [u32; 8] = [0, 1, 2, 22, 7, 8, 9, 10];
pub const FLOAT_NUMBERS: [u32; 4] = [0, 1, 2, 22];

#[derive(Default)]
pub struct Seen {
    numbers: [u64; NUMBERS.len()],
    floats: [u64; FLOAT_NUMBERS.len()],
    seen: [u64; SEEN.len()],
}

impl Seen {
    fn at(&mut self, what: &str) {
        self.seen[SEEN.iter().position(|s| *s == what).unwrap()] += 1;
    }

    fn note(&mut self, c: &Case, answer: Answer, floats: u32) {
        match c.nearest_answer() {
            Answer::Yes if c.unused() != EMPTY => self.at("nearest, a site unused"),
            Answer::Yes => self.at("nearest"),
            Answer::HullPlace(i) => {
                let (h, i) = (c.mesh.hull.len(), i as usize);
                let [a, b, d] = [i + h - 1, i, i + 1].map(|k| c.place(c.mesh.hull[k % h]));
                self.at(if cross(less(b, a), less(d, b)) > 0 { "a hull place that turns right" } else { "a hull place that begins a second run" });
                if c.unused() != EMPTY {
                    self.at("a hull place, a site unused");
                }
            }
            _ => {}
        }
        self.numbers[NUMBERS.iter().position(|&n| n == answer.numbers()[0]).unwrap()] += 1;
        self.floats[FLOAT_NUMBERS.iter().position(|&n| n == floats).unwrap()] += 1;
        let each = |c: &Case| -> Vec<i128> { (0..c.mesh.triangles.len()).filter_map(|e| c.far(e)).collect() };
        match answer {
            Answer::Yes => {
                self.at("yes");
                if each(c).contains(&0) {
                    self.at("yes, a far site on the circle");
                }
                if c.grid.iter().any(|v| v.abs() == LIMIT) {
                    self.at("yes, a coordinate at the limit");
                }
                if c.work > c.grid.len() / 2 {
                    self.at("more room than needed");
                }
            }
            Answer::Triangle(t) => {
                self.at("a triangle");
                if c.turn(t as usize) == 0 {
                    self.at("a flat triangle");
                }
                if each(c).iter().any(|&x| x < 0) {
                    self.at("a triangle, and a far site inside");
                }
            }
            Answer::Halfedge(_) => self.at("a half-edge"),
            Answer::HullPlace(_) => unreachable!(),
            Answer::Refused(22) if reference::topology(&c.mesh) != 0 => self.at("22 and a broken mesh"),
            Answer::Refused(_) => {}
        }
    }

    /// Prints what came up and gives what did not.
    pub fn report(&self) -> Vec<String> {
        let names = NUMBERS.iter().map(|n| format!("grid_check {n}"));
        let names = names.chain(FLOAT_NUMBERS.iter().map(|n| format!("grid_sites {n}"))).chain(SEEN.iter().map(|s| s.to_string()));
        let counts = self.numbers.iter().chain(&self.floats).chain(&self.seen).copied();
        tally::report("How often the calls on the grid answered each number, and what came up", "the grid", names.zip(counts))
    }
}

fn check_call(name: &'static str, c: &Case, answer: Answer) -> Call {
    let [number, kind, place] = answer.numbers();
    let entry = vec![0xa5a5a5a5; c.work];
    let exit = match number {
        0 => padded(&reference::leftmost(&c.mesh), c.work),
        1 | 2 | 22 => entry.clone(),
        _ => vec![EMPTY; c.work],
    };
    let m = &c.mesh;
    let call = Call::new(name).gives(number).wholes(&c.grid).indexes(&m.triangles).indexes(&m.halfedges).indexes(&m.hull);
    call.lent_indexes(&entry, &exit).gives(kind).gives(place)
}

fn floats_call(c: &Case, number: u32) -> Call {
    let entry = vec![-4321.0; c.floats];
    let mut exit = entry.clone();
    if number == 0 {
        exit.fill(0.0);
        exit.iter_mut().zip(&c.grid).for_each(|(x, &v)| *x = v as f64);
    }
    Call::new("grid_sites").gives(number).wholes(&c.grid).lent_floats(&entry, &exit)
}

/// One case put to both programs.
pub fn run_one(index: u64, c: &Case, library: &mut Library, seen: &mut Seen) -> Result<(), Difference> {
    let (answer, floats) = (c.answer(), c.floats_answer());
    seen.note(c, answer, floats);
    if library.has("grid_check") {
        library.put(index, check_call("grid_check", c, answer))?;
        let unused = if answer.numbers()[0] == 0 { c.unused() } else { EMPTY };
        library.put(index, check_call("grid_nearest", c, c.nearest_answer()).gives(unused))?;
        library.put(index, floats_call(c, floats))?;
    }
    Ok(())
}
