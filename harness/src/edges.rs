//! Boxes by their four edges: what the calls owe by the words of request 2026-07, read a second time. The Rust has no such box; where the edges
//! are those of a center and a size, the build is the one that was held to it.

use crate::cases::Case;
use crate::expect::{self, Beside, Facts, Slices};
use crate::fans;
use crate::generate::floats::{self, step};
use crate::generate::rng::Rng;
use crate::library::Call;
use crate::mesh::{Area, Pt, EMPTY};
use crate::plane::{list, sound, Seen};
use crate::reference::{self, Counts, Edges, Outcome};
use crate::tally::Tally;
use crate::why;

fn bits(e: &Edges) -> [u64; 4] {
    [e.left, e.top, e.right, e.bottom].map(f64::to_bits)
}

/// Edges to ask with: those of a center and a size, the same some steps away, at the limit 2^101, or with one that breaks the rule.
pub fn given(r: &mut Rng, area: &Area) -> Edges {
    let e = reference::edges(area);
    let mut list = [e.left, e.top, e.right, e.bottom];
    let limit = 2.0 * reference::LIMIT;
    match r.weighted(&[8, 4, 1, 2]) {
        0 => {}
        1 => list = list.map(|x| step(x, r.range(-3, 3))),
        2 => {
            let at = r.below(4);
            list[at] = if at < 2 { -1.0 } else { 1.0 } * step(limit, r.range(-1, 1));
        }
        _ => {
            let at = r.below(4);
            list[at] = match r.below(5) {
                0 => f64::NAN,
                1 => floats::refused(r),
                2 => list[(at + 2) % 4],
                3 => step(list[(at + 2) % 4], if at < 2 { 1 } else { -1 }),
                _ => r.pick(&[0.0, -0.0, step(limit, 1), -step(limit, 1), f64::INFINITY, f64::NEG_INFINITY]),
            };
        }
    }
    let [left, top, right, bottom] = list;
    Edges { left, top, right, bottom }
}

/// The build and the reason in a box by its edges; `clipped` is the build by center and size, held to the Rust.
pub fn ask(
    index: u64, c: &Case, facts: &Facts, clipped: Option<&Outcome>, calls: &mut Vec<Call>, tally: &mut Tally,
) -> Result<(), String> {
    let r = &mut Rng::new(0x6564676573, index);
    let m = &c.mesh;
    let e = given(r, &c.area);
    let boxed = reference::edges_sound(&e);
    let same = bits(&e) == bits(&reference::edges(&c.area));
    if same && reference::box_sound(&c.area) && !boxed {
        return Err(format!("the edges of a sound box break the rule for edges: {e:?}"));
    }
    let outcome = match clipped {
        Some(o) if same => Some(o.clone()),
        _ if boxed && facts.accepted() => Some(reference::build_within(m, e, &mut Counts::default())),
        _ => None,
    };
    let outcome = outcome.as_ref();
    let room = c.lengths.suffice(m);
    let rules = match expect::mesh_number(m, facts, &Beside { room, area: None, site: None, to: None }) {
        n @ (1 | 2) => n,
        _ if !boxed => 3,
        n => n,
    };
    let built = |rules| match (rules, outcome) {
        (0, Some(Err(f))) => f.number,
        (n, _) => n,
    };
    let number = built(rules);
    tally.number("build_by_edges", number);
    let without = if rules == 10 { fans::built_without(m, &e) } else { 0 };
    if number == 10 {
        tally.fan("build_by_edges", without);
    }
    let entry = Slices::fresh(&c.lengths);
    let exit = expect::built(number, outcome, &entry);
    calls.push(Call::new("build_by_edges").gives(number).edges(&e).mesh(m).lent_slices(&entry, &exit));

    let q = why::question(r, m, outcome);
    let reason = why::reason(m, boxed, room, &q, outcome);
    let number = match rules {
        1..=3 => rules,
        _ if q.out_of_range(m) => 4,
        _ => built(rules),
    };
    if number != reason.number {
        return Err(format!("why by edges: the number is {number}, the place says {reason:?} (asked {q:?})"));
    }
    tally.number("why_by_edges", number);
    if number == 10 {
        tally.fan("why_by_edges", without);
    }
    let exit = expect::built(number, outcome, &entry);
    let call = Call::new("why_by_edges").gives(number).edges(&e).mesh(m).number(q.asked).number(q.first).number(q.second);
    calls.push(reason.numbers().into_iter().fold(call.lent_slices(&entry, &exit), Call::gives));
    Ok(())
}

/// The calls on points and a box, by its edges.
pub fn plane(r: &mut Rng, area: &Area, a: Pt, b: Pt, calls: &mut Vec<Call>, seen: &mut Seen) {
    let e = given(r, area);
    let on = |name: &'static str, number| Call::new(name).gives(number).edges(&e);
    let boxed = seen.answer("box_by_edges", if reference::edges_sound(&e) { 0 } else { 3 });
    let one = seen.answer("inside_by_edges", if boxed == 3 { 3 } else if sound(a) { 0 } else { 6 });
    let two = seen.answer("crossings_by_edges", if one != 0 { one } else if sound(b) { 0 } else { 6 });

    let owed = if boxed == 0 {
        let center = reference::center(&e);
        [center.x, center.y, e.right - e.left, e.bottom - e.top]
    } else {
        [0.0; 4]
    };
    calls.push(owed.into_iter().fold(on("box_by_edges", boxed), Call::gives_float));

    let room = [7, 8, 11][r.below(3)];
    let lent = vec![-4321.0; room];
    let mut corners = lent.clone();
    let number = seen.answer("corners_by_edges", if room < 8 { 2 } else { boxed });
    if number == 0 {
        corners = reference::corners(&e).iter().flat_map(|p| [p.x, p.y]).collect();
        corners.resize(room, 0.0);
    }
    calls.push(on("corners_by_edges", number).lent_floats(&lent, &corners));

    let side = if one == 0 { reference::side(&e, a) } else { None };
    let within = one == 0 && reference::inside(&e, a);
    for (name, owed) in [
        ("is_inside_by_edges", within as u32),
        ("is_exclusively_inside_by_edges", (within && side.is_none()) as u32),
        ("which_edge_by_edges", side.map_or(EMPTY, |s| s as u32)),
    ] {
        calls.push(on(name, one).float(a.x).float(a.y).gives(owed));
    }

    let n = &mut Counts::default();
    let (mut line, mut ray) = (vec![], vec![]);
    if two == 0 {
        line = list(&reference::intersect_line(&e, a, b, n));
        ray = list(&reference::project_ray(&e, a, b, n));
    }
    for (name, found) in [("intersect_line_by_edges", line), ("project_ray_by_edges", ray)] {
        let call = on(name, two).float(a.x).float(a.y).float(b.x).float(b.y).gives(found.len() as u32);
        let four = found.iter().flatten().map(|&x| f64::from_bits(x)).chain([0.0; 4]).take(4);
        calls.push(four.fold(call, Call::gives_float));
    }
}
