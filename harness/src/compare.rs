//! One case put to the Rust, to the second reading of the rules and to the proved library: any difference is told in words.

use crate::areas;
use crate::bulk;
use crate::cases::Case;
use crate::cut;
use crate::edges;
use crate::expect::{self, Beside, Facts, Slices};
use crate::fans;
use crate::gauges;
use crate::library::{Call, Difference, Library};
use crate::maps;
use crate::mesh::{Area, Mesh, Pt, EMPTY};
use crate::reference::{self, Fault, Outcome};
use crate::rust;
use crate::tally::Tally;
use crate::why;
use source::Voronoi;

type Told = Result<(), String>;

fn bits(list: &[Pt]) -> Vec<(u64, u64)> {
    list.iter().map(|p| (p.x.to_bits(), p.y.to_bits())).collect()
}

/// The two sides must be equal; the words say what was asked.
fn equal<T: PartialEq + std::fmt::Debug>(what: &str, theirs: &T, ours: &T) -> Told {
    if theirs == ours {
        Ok(())
    } else {
        Err(format!("{what}:\n  owed  {theirs:?}\n  given {ours:?}"))
    }
}

/// Builds with the Rust and by the rules, which must agree; 11 and 12 come before the Rust is asked.
pub fn build_both(m: &Mesh, lent: &rust::Lent, area: &Area, tally: &mut Tally) -> Result<Outcome, String> {
    let ours = reference::build(m, area, &mut tally.branches);
    if let Err(Fault { number: 11 | 12, .. }) = ours {
        return Ok(ours);
    }
    match (&ours, rust::build(lent, area)) {
        (Ok(o), Ok(t)) => {
            equal("leftmost table", &t.leftmost, &o.leftmost)?;
            equal("owners as found", &t.owners, &o.owners)?;
            equal("vertices", &bits(&t.vertices), &bits(&o.vertices))?;
            equal("cells", &t.cells, &o.plain())?;
            let steps = rust::steps(lent, area, &o.met)?;
            equal("vertices by the steps", &steps.vertices, &o.vertices.len())?;
            equal("reused points", &steps.reused, &o.reused)?;
            let added = t.vertices.len() - m.triangle_count() - 4;
            equal("added and reused points are all steps", &steps.taken, &(added + o.reused.iter().sum::<u32>() as usize))?;
        }
        (Err(f), Err(Ok(k))) => equal("refusal", &k, &f.number)?,
        (Ok(_), Err(k)) => return Err(format!("the Rust panics ({k:?}), the rules accept")),
        (Err(f), Ok(_)) => return Err(format!("the Rust builds, the rules refuse: {f:?}")),
        (_, Err(Err(words))) => return Err(format!("the Rust panics with no number: {words}")),
    }
    Ok(ours)
}

/// One case put to all sides. The library's answers may be compared later, when enough calls are gathered.
pub fn run(index: u64, c: &Case, library: &mut Library, tally: &mut Tally) -> Result<(), Difference> {
    let mut calls = Vec::new();
    ask(index, c, &mut calls, tally).map_err(|words| Difference { case: index, words })?;
    for call in calls {
        library.put(index, call)?;
    }
    Ok(())
}

fn ask(index: u64, c: &Case, calls: &mut Vec<Call>, tally: &mut Tally) -> Told {
    let m = &c.mesh;
    let facts = Facts::of(m);
    tally.cases += 1;

    check(c, &facts, calls, tally);
    let lent = facts.accepted().then(|| rust::Lent::new(m));
    let mut clipped = None;
    if let Some(lent) = &lent {
        equal("leftmost table", &lent.leftmost(), &facts.leftmost)?;
        if reference::box_sound(&c.area) {
            clipped = Some(build_both(m, lent, &c.area, tally)?);
        }
    }
    build(c, &facts, clipped.as_ref(), calls, tally)?;
    why::ask(index, c, &facts, clipped.as_ref(), calls, tally)?;
    edges::ask(index, c, &facts, clipped.as_ref(), calls, tally)?;
    cut::ask(index, c, &facts, calls, tally)?;
    fans::ask(index, c, clipped.as_ref(), calls, tally)?;

    let built = clipped.as_ref().and_then(|o| o.as_ref().ok());
    let cells = match built {
        Some(b) => b.plain(),
        None => (0..m.count() as u32).map(|s| vec![s / 2, s / 2 + 1, s / 3]).collect(),
    };
    let vertices = built.map(|b| &b.vertices[..]);
    maps::ask(index, c, &cells, vertices, calls, tally);
    gauges::ask(index, calls, tally);
    areas::ask(index, c, &cells, vertices, calls, tally);
    let diagram = lent.as_ref().map(|l| rust::diagram(l, &cells));
    walks(c, &facts, &cells, diagram.as_ref(), calls, tally)?;
    bulk::ask(index, c, &facts, &cells, diagram.as_ref(), calls, tally);
    cell_questions(c, &cells, diagram.as_ref(), calls, tally)
}

fn check(c: &Case, facts: &Facts, calls: &mut Vec<Call>, tally: &mut Tally) {
    let beside = Beside { room: c.work >= c.mesh.count(), area: None, site: None, to: None };
    let number = expect::mesh_number(&c.mesh, facts, &beside);
    tally.number("check", number);
    let work = vec![0xa5a5a5a5; c.work];
    let after = expect::work_after(number, &work, &facts.leftmost);
    calls.push(Call::new("check").gives(number).mesh(&c.mesh).lent_indexes(&work, &after));
}

pub fn build(
    c: &Case, facts: &Facts, outcome: Option<&Outcome>, calls: &mut Vec<Call>, tally: &mut Tally,
) -> Told {
    let beside = Beside { room: c.lengths.suffice(&c.mesh), area: Some(&c.area), site: None, to: None };
    let mut number = expect::mesh_number(&c.mesh, facts, &beside);
    if let (0, Some(Err(f))) = (number, outcome) {
        number = f.number;
    }
    tally.number("build", number);
    if number == 10 {
        tally.fan("build", fans::built_without(&c.mesh, &reference::edges(&c.area)));
    }
    if let (0, Some(Ok(b))) = (number, outcome) {
        let exact = expect::Lengths::exact(&c.mesh);
        let entries: usize = b.cells.iter().map(|c| c.len()).sum();
        let vertices = b.vertices.len() as f64 / (exact.floats / 2) as f64;
        let entries = entries as f64 / exact.indexes as f64;
        tally.most_vertices = tally.most_vertices.max(vertices);
        tally.most_entries = tally.most_entries.max(entries);
        if vertices > 1.0 || entries > 1.0 {
            return Err("build: the room does not suffice".to_string());
        }
        tally.corners[0] += b.lost as u64;
        tally.corners[1] += b.met_alone();
        (0..3).for_each(|kind| tally.reused[kind] += b.reused[kind] as u64);
        let links = expect::links(&c.mesh, c.lengths.indexes);
        let past = (c.mesh.triangle_count() + links) as u32;
        tally.store[0] += b.again.iter().filter(|(_, across)| *across).count() as u64;
        tally.store[1] += (b.vertices.len() as u32 > past) as u64;
        tally.store[2] += b.again.iter().filter(|(at, _)| *at >= past).count() as u64;
        tally.store[3] += b.again.iter().filter(|(at, across)| *at < past && !*across).count() as u64;
    }
    let entry = Slices::fresh(&c.lengths);
    let exit = expect::built(number, outcome, &entry);
    calls.push(Call::new("build").gives(number).area(&c.area).mesh(&c.mesh).lent_slices(&entry, &exit));
    Ok(())
}

/// The names of the lists that are handed out, each with its own allowance.
const LISTS: [&str; 4] = ["walk", "neighbours", "clipped_neighbours", "path"];

/// One list handed out: `question` adds what is asked, between the mesh and the lent slices.
fn hand(
    c: &Case, facts: &Facts, which: usize, number: u32, whole: &[u32], question: impl FnOnce(Call) -> Call,
    calls: &mut Vec<Call>, tally: &mut Tally,
) {
    let name = LISTS[which];
    let length = c.allowances[which].length(whole.len());
    tally.number(name, number);
    if number == 0 {
        tally.allowance(length, whole.len());
    }
    let (work, out) = (vec![0xa5a5a5a5; c.work], vec![0x5a5a5a5a; length]);
    let owed = expect::handed(number, whole, &work, &facts.leftmost, &out);
    calls.push(
        question(Call::new(name).gives(number).mesh(&c.mesh))
            .lent_indexes(&work, &owed.work)
            .lent_indexes(&out, &owed.out)
            .gives(owed.count)
            .gives(owed.ended),
    );
}

fn walks(
    c: &Case, facts: &Facts, cells: &[Vec<u32>], diagram: Option<&Voronoi>, calls: &mut Vec<Call>, tally: &mut Tally,
) -> Told {
    let m = &c.mesh;
    let left = &facts.leftmost;
    if let Some(v) = diagram {
        // On an accepted mesh the walks together have each half-edge exactly once.
        let mut seen = vec![0u8; m.triangles.len()];
        (0..m.count()).flat_map(|s| reference::walk(m, left, s)).for_each(|e| seen[e as usize] += 1);
        if seen.iter().any(|&k| k != 1) {
            return Err("walks: a half-edge is missed or repeated on an accepted mesh".to_string());
        }
        // Every site of a small mesh, some of a large one, by the Rust and by the rules.
        for s in (0..m.count()).step_by(1 + m.count() / 64) {
            equal("walk", &rust::walk(v, s), &reference::walk(m, left, s))?;
            equal("neighbours", &rust::neighbours(v, s), &reference::neighbours(m, left, s))?;
            let clipped = reference::clipped_neighbours(m, left, cells, s);
            equal("clipped neighbours", &rust::clipped_neighbours(v, s), &clipped)?;
            if reference::ordinary(c.to.x) && reference::ordinary(c.to.y) {
                equal("path", &rust::path(v, s, c.to), &reference::path(m, left, s, c.to))?;
            }
        }
    }
    let room = c.work >= m.count();
    let beside = Beside { room, area: None, site: Some(c.site), to: None };
    let number = expect::mesh_number(m, facts, &beside);
    let s = c.site as usize;
    let asked = (number == 0).then_some(diagram).flatten();
    let list = |f: &dyn Fn(&Voronoi) -> Vec<u32>| asked.map(f).unwrap_or_default();
    hand(c, facts, 0, number, &list(&|v| rust::walk(v, s)), |q| q.number(c.site), calls, tally);
    hand(c, facts, 1, number, &list(&|v| rust::neighbours(v, s)), |q| q.number(c.site), calls, tally);

    let (offsets, entries) = c.lent_offsets(cells);
    let sound = offsets.len() == m.count() + 1 && expect::offsets_sound(&offsets, entries.len());
    let after = if number == 0 && !sound { 16 } else { number };
    // Moved offsets can still be sound: then the neighbours are those of the cells as they are lent.
    let kept = match (after, c.offsets) {
        (0, crate::cases::Offsets::Sound) => list(&|v| rust::clipped_neighbours(v, s)),
        (0, _) => {
            let part = |w: &[u32]| entries[w[0] as usize..w[1] as usize].to_vec();
            let lent: Vec<Vec<u32>> = offsets.windows(2).map(part).collect();
            reference::clipped_neighbours(m, left, &lent, s)
        }
        _ => Vec::new(),
    };
    let question = |q: Call| q.indexes(&offsets).indexes(&entries).number(c.site);
    hand(c, facts, 2, after, &kept, question, calls, tally);

    let number = expect::mesh_number(m, facts, &Beside { to: Some(c.to), ..beside });
    let path = if number == 0 { list(&|v| rust::path(v, s, c.to)) } else { Vec::new() };
    hand(c, facts, 3, number, &path, |q| q.number(c.site).float(c.to.x).float(c.to.y), calls, tally);

    let number = expect::mesh_number(m, facts, &Beside { site: None, ..beside });
    let (a, b) = c.pair;
    let owed = match (number, diagram) {
        (0, Some(v)) => rust::shared_edge(v, a, b),
        _ => EMPTY,
    };
    if number == 0 {
        equal("shared edge", &owed, &reference::shared_edge(m, a, b))?;
    }
    tally.number("shared_edge", number);
    let work = vec![0xa5a5a5a5; c.work];
    let exit = expect::work_after(number, &work, left);
    calls.push(Call::new("shared_edge").gives(number).mesh(m).number(a).number(b).lent_indexes(&work, &exit).gives(owed));
    Ok(())
}

fn cell_questions(
    c: &Case, cells: &[Vec<u32>], diagram: Option<&Voronoi>, calls: &mut Vec<Call>, tally: &mut Tally,
) -> Told {
    let (offsets, entries) = c.lent_offsets(cells);
    let number = expect::cell_number(&offsets, entries.len(), &[c.site, c.other]);
    tally.number("cells_share_edge", number);
    let part = |s: u32| &entries[offsets[s as usize] as usize..offsets[s as usize + 1] as usize];
    let yes = number == 0 && reference::shared_entries(part(c.site), part(c.other)) >= 2;
    if let (0, Some(v), crate::cases::Offsets::Sound) = (number, diagram, c.offsets) {
        equal("cells share an edge", &rust::cells_share(v, c.site as usize, c.other as usize), &yes)?;
    }
    let ask = |name, number| Call::new(name).gives(number).indexes(&offsets).indexes(&entries).number(c.site);
    calls.push(ask("cells_share_edge", number).number(c.other).gives(yes as u32));

    let number = expect::cell_number(&offsets, entries.len(), &[c.site]);
    tally.number("cell", number);
    let s = c.site as usize;
    let (start, length) = if number == 0 { (offsets[s], offsets[s + 1] - offsets[s]) } else { (0, 0) };
    calls.push(ask("cell", number).gives(start).gives(length));
    Ok(())
}
