//! The plane functions: the Rust's own, the rules (docs/use/RULES.md) read a second time, and the proved library, on the same floats.

use crate::edges;
use crate::generate::floats::{self, step};
use crate::generate::rng::Rng;
use crate::library::{Call, Difference, Library};
use crate::mesh::{pt, Area, Pt, EMPTY};
use crate::reference::{self, Branch, Counts, Crossing};
use crate::rust::{area, back, point};
use crate::text::power;
use source::bounding_box::open;
use source::utils;

type Told = Result<(), String>;

/// How often each answer came up.
pub struct Seen {
    pub counts: Counts,
    pub answers: std::collections::BTreeMap<&'static str, [u64; 18]>,
    pub sides: [u64; 5],
    pub inside: [u64; 3],
    pub near: [u64; 2],
}

fn bits(p: Pt) -> [u64; 2] {
    [p.x.to_bits(), p.y.to_bits()]
}

fn same<T: PartialEq + std::fmt::Debug>(what: &str, given: impl Fn() -> String, theirs: T, ours: T) -> Told {
    if theirs == ours {
        Ok(())
    } else {
        Err(format!("{what} of {}:\n  owed  {theirs:x?}\n  given {ours:x?}", given()))
    }
}

/// Coordinates of the crossing points, nearest first.
pub fn list(c: &Crossing) -> Vec<[u64; 2]> {
    match *c {
        Crossing::None => vec![],
        Crossing::One(p) => vec![bits(p)],
        Crossing::Two(p, q) => vec![bits(p), bits(q)],
    }
}

fn options(o: &open::Points) -> Vec<[u64; 2]> {
    [&o.0, &o.1].into_iter().flatten().map(|p| bits(back(p))).collect()
}

/// A box and two points, often in hard places: on a side, on a corner, one step or one tolerance off, straight above.
struct Scene {
    area: Area,
    a: Pt,
    b: Pt,
    c: Pt,
}

fn scene(r: &mut Rng) -> Scene {
    let exact = r.chance(1, 2);
    let mut area = if exact {
        Area {
            x: r.range(-4, 4) as f64 / 2.0,
            y: r.range(-4, 4) as f64 / 2.0,
            width: r.range(1, 8) as f64 / 2.0,
            height: r.range(1, 8) as f64 / 2.0,
        }
    } else {
        Area { x: r.signed(), y: r.signed(), width: 3.0 * r.unit(), height: 3.0 * r.unit() }
    };
    match r.below(24) {
        0 => area = Area { x: 0.0, y: 0.0, width: 2.0, height: 2.0 },
        1 => area.width = floats::admitted(r),
        2 => area.height = floats::admitted(r),
        3 => (area.x, area.y) = (floats::admitted(r), floats::admitted(r)),
        4 => (area.width, area.height) = (power(r.range(-60, 100) as i32), power(r.range(-60, 100) as i32)),
        5 => area = crate::generate::areas::refused(r),
        _ => {}
    }
    let (a, mut b) = (place(r, &area), place(r, &area));
    match r.below(16) {
        0 => b.x = a.x,
        1 => b.y = a.y,
        2 => b.x = a.x + r.pick(&[1.0, -1.0]) * step(power(-50), r.range(-1, 1)),
        3 => b.y = a.y + r.pick(&[1.0, -1.0]) * step(power(-50), r.range(-1, 1)),
        4 => b = pt(a.x + power(-50), a.y - power(-50)),
        5 => b = a,
        _ => {}
    }
    Scene { area, a, b, c: place(r, &area) }
}

fn place(r: &mut Rng, area: &Area) -> Pt {
    let e = reference::edges(area);
    let mut one = |low: f64, high: f64| match r.weighted(&[5, 4, 3, 2, 2, 2, 1, 1]) {
        0 => low + (high - low) * (2.0 * r.unit() - 0.5),
        1 => r.range(-8, 8) as f64 / 2.0,
        2 => r.pick(&[low, high]),
        3 => step(r.pick(&[low, high]), r.range(-2, 2)),
        4 => r.pick(&[low, high]) + r.range(-1, 1) as f64 * step(power(-50), r.range(-1, 1)),
        5 => floats::admitted(r),
        6 => r.signed() * 1e10,
        _ if r.chance(1, 20) => floats::refused(r),
        _ => 0.0,
    };
    pt(one(e.left, e.right), one(e.top, e.bottom))
}

pub fn sound(p: Pt) -> bool {
    reference::ordinary(p.x) && reference::ordinary(p.y)
}

impl Seen {
    pub fn answer(&mut self, call: &'static str, number: u32) -> u32 {
        self.answers.entry(call).or_default()[number as usize] += 1;
        number
    }
}

pub fn run(seed: u64, count: u64, library: &mut Library) -> Result<Seen, Difference> {
    let mut seen = Seen {
        counts: Counts::default(),
        answers: Default::default(),
        sides: [0; 5],
        inside: [0; 3],
        near: [0; 2],
    };
    let mut calls = Vec::new();
    for i in 0..count {
        let r = &mut Rng::new(seed, 1 << 41 | i);
        let told = one(r, &mut calls, &mut seen).and_then(|()| centroid(r, &mut calls, &mut seen));
        told.map_err(|words| Difference { case: i, words })?;
        for call in calls.drain(..) {
            library.put(i, call)?;
        }
    }
    library.flush()?;
    Ok(seen)
}

/// A call on a box.
fn on_box(name: &'static str, number: u32, a: &Area) -> Call {
    Call::new(name).gives(number).float(a.x).float(a.y).float(a.width).float(a.height)
}

fn one(r: &mut Rng, calls: &mut Vec<Call>, seen: &mut Seen) -> Told {
    let Scene { area: given, a, b, c } = scene(r);
    let points = [a, b, c];
    let words = || format!("{given:?} {a:?} {b:?} {c:?}");

    let (x, y) = (a.x, if r.chance(1, 2) { b.x } else { a.x + power(-50) * r.range(-2, 2) as f64 });
    let near = utils::abs_diff_eq(x, y, utils::TOLERANCE);
    same("tolerance", words, near, reference::near(x, y))?;
    seen.near[near as usize] += 1;
    calls.push(Call::new("abs_diff_eq").gives(near as u32).float(x).float(y));

    let number = seen.answer("dist2", if points[..2].iter().all(|&p| sound(p)) { 0 } else { 6 });
    let mut owed = 0.0;
    if number == 0 {
        owed = utils::dist2(&point(a), &point(b));
        same("dist2", words, owed.to_bits(), reference::dist2(a, b).to_bits())?;
    }
    calls.push(Call::new("dist2").gives(number).float(a.x).float(a.y).float(b.x).float(b.y).gives_float(owed));

    let mut center = back(&utils::cicumcenter(&point(a), &point(b), &point(c)));
    let number = if !points.iter().all(|&p| sound(p)) {
        6
    } else if !reference::sound_center(center) {
        11
    } else {
        0
    };
    seen.answer("circumcenter", number);
    if number == 0 {
        same("circumcenter", words, bits(center), bits(reference::circumcenter(a, b, c)))?;
    } else {
        center = pt(0.0, 0.0);
    }
    let call = Call::new("circumcenter").gives(number).float(a.x).float(a.y).float(b.x).float(b.y).float(c.x).float(c.y);
    calls.push(call.gives_float(center.x).gives_float(center.y));
    boxed(&given, a, b, words, calls, seen)?;
    edges::plane(r, &given, a, b, calls, seen);
    Ok(())
}

fn boxed(given: &Area, a: Pt, b: Pt, words: impl Fn() -> String + Copy, calls: &mut Vec<Call>, seen: &mut Seen) -> Told {
    let number = if reference::box_sound(given) { 0 } else { 3 };
    let one = if number == 3 { 3 } else if sound(a) { 0 } else { 6 };
    let two = if one != 0 { one } else if sound(b) { 0 } else { 6 };
    seen.answer("box", number);
    let theirs = area(given);
    let e = reference::edges(given);
    let mut edges = [0.0; 6];
    // A slice of 7 floats is too short for the corners; what is past the eighth is cleared.
    let room = [7, 8, 11][(a.x.to_bits() % 3) as usize];
    let lent = vec![-4321.0; room];
    let mut corners = lent.clone();
    if number == 0 {
        edges = [theirs.left(), theirs.top(), theirs.right(), theirs.bottom(), theirs.width(), theirs.height()];
        let ours = [e.left, e.top, e.right, e.bottom, e.right - e.left, e.bottom - e.top];
        same("edges", words, edges.map(f64::to_bits), ours.map(f64::to_bits))?;
        let four = theirs.corners();
        same("corners", words, four.clone().map(|p| bits(back(&p))), reference::corners(&e).map(bits))?;
        if room >= 8 {
            corners = four.iter().flat_map(|p| [p.x, p.y]).collect();
            corners.resize(room, 0.0);
        }
    }
    calls.push(edges.into_iter().fold(on_box("box", number, given), Call::gives_float));
    let number = seen.answer("corners", if room < 8 { 2 } else { number });
    calls.push(on_box("corners", number, given).lent_floats(&lent, &corners));

    seen.answer("inside", one);
    let (mut side, mut within, mut strictly) = (None, false, false);
    if one == 0 {
        side = open::which_edge(&theirs, &point(a));
        within = theirs.is_inside(&point(a));
        strictly = theirs.is_exclusively_inside(&point(a));
        same("which_edge", words, side, reference::side(&e, a))?;
        same("inside", words, within, reference::inside(&e, a))?;
        same("exclusively inside", words, strictly, within && side.is_none())?;
        seen.sides[side.unwrap_or(4)] += 1;
        seen.inside[within as usize + strictly as usize] += 1;
    }
    let side = side.map_or(EMPTY, |s| s as u32);
    for (name, owed) in [("is_inside", within as u32), ("is_exclusively_inside", strictly as u32), ("which_edge", side)] {
        calls.push(on_box(name, one, given).float(a.x).float(a.y).gives(owed));
    }

    seen.answer("crossings", two);
    let (mut line, mut ray) = ((None, None), (None, None));
    if two == 0 {
        line = open::intersect_line(&theirs, &point(a), &point(b));
        ray = open::project_ray(&theirs, &point(a), &point(b));
    }
    for (name, found) in [("intersect_line", options(&line)), ("project_ray", options(&ray))] {
        let call = on_box(name, two, given).float(a.x).float(a.y).float(b.x).float(b.y).gives(found.len() as u32);
        let four = found.iter().flatten().map(|&x| f64::from_bits(x)).chain([0.0; 4]).take(4);
        calls.push(four.fold(call, Call::gives_float));
    }
    if two != 0 {
        return Ok(());
    }
    same("intersect_line", words, options(&line), list(&reference::intersect_line(&e, a, b, &mut seen.counts)))?;
    same("project_ray", words, options(&ray), list(&reference::project_ray(&e, a, b, &mut seen.counts)))?;
    // The inner ordering, on a lone point too.
    let direction = pt(b.y, a.x);
    let alone = open::order_points_on_ray(&point(a), &point(direction), Some(point(b)), None);
    let ours = reference::order_points(a, direction, Crossing::One(b), &mut Counts::default());
    same("order_points_on_ray", words, options(&alone), list(&ours))
}

fn centroid(r: &mut Rng, calls: &mut Vec<Call>, seen: &mut Seen) -> Told {
    let n = if r.chance(1, 8) { r.below(13) } else { 1 + r.below(3) };
    let mut floats: Vec<f64> = (0..2 * n).map(|_| floats::admitted(r)).collect();
    match r.below(12) {
        0 => floats.push(0.0),
        1 if n > 0 => {
            let i = r.below(2 * n);
            floats[i] = floats::refused(r);
        }
        2 if r.chance(1, 10_000) => floats = vec![r.signed(); 2 * 65_536],
        3 if r.chance(1, 10_000) => floats = vec![1.0; 2 * 65_537],
        _ => {}
    }
    let n = floats.len() / 2;
    let number = if floats.len() % 2 == 1 || n == 0 || n > 65_536 {
        1
    } else if !reference::coordinates_sound(&floats) {
        6
    } else {
        0
    };
    seen.answer("centroid", number);
    let mut owed = pt(0.0, 0.0);
    if number == 0 {
        let points: Vec<_> = floats.chunks_exact(2).map(|c| point(pt(c[0], c[1]))).collect();
        owed = back(&utils::calculate_approximated_cetroid(points.iter()));
        let mut sum = pt(0.0, 0.0);
        for c in floats.chunks_exact(2) {
            sum = pt(sum.x + c[0], sum.y + c[1]);
        }
        same("centroid", || format!("{floats:?}"), bits(owed), bits(pt(sum.x / n as f64, sum.y / n as f64)))?;
    }
    calls.push(Call::new("centroid").gives(number).floats(&floats).gives_float(owed.x).gives_float(owed.y));
    Ok(())
}

/// The answers each call must have had.
const ANSWERS: &[(&str, &[u32])] = &[
    ("dist2", &[0, 6]),
    ("circumcenter", &[0, 6, 11]),
    ("centroid", &[0, 1, 6]),
    ("box", &[0, 3]),
    ("corners", &[0, 2, 3]),
    ("inside", &[0, 3, 6]),
    ("crossings", &[0, 3, 6]),
    ("box_by_edges", &[0, 3]),
    ("corners_by_edges", &[0, 2, 3]),
    ("inside_by_edges", &[0, 3, 6]),
    ("crossings_by_edges", &[0, 3, 6]),
];

/// Prints what came up and gives what never did.
pub fn report(seen: &Seen) -> Vec<String> {
    let mut holes = Vec::new();
    println!("\nPlane functions: how often each number was answered");
    for (call, numbers) in ANSWERS {
        let row = seen.answers.get(call).copied().unwrap_or_default();
        let words: Vec<String> = numbers.iter().map(|&n| format!("{n}: {}", row[n as usize])).collect();
        println!("  {call:18} {}", words.join(", "));
        holes.extend(numbers.iter().filter(|&&n| row[n as usize] == 0).map(|n| format!("{call} {n}")));
    }
    println!("  tolerance      no {}, yes {}", seen.near[0], seen.near[1]);
    println!("  place          outside {}, on a side {}, strictly inside {}", seen.inside[0], seen.inside[1], seen.inside[2]);
    println!("  side           top {}, left {}, bottom {}, right {}, none {}", seen.sides[0], seen.sides[1], seen.sides[2], seen.sides[3], seen.sides[4]);
    for (name, list) in [("tolerance", &seen.near[..]), ("place", &seen.inside[..]), ("side", &seen.sides[..])] {
        if list.contains(&0) {
            holes.push(name.to_string());
        }
    }
    for i in Branch::LineLeftRight as usize..=Branch::RayLoneRefused as usize {
        println!("  {:22} {}", Counts::name(i), seen.counts.0[i]);
        if seen.counts.0[i] == 0 {
            holes.push(Counts::name(i));
        }
    }
    holes
}
