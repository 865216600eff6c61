//! Random meshes for the planner's two programs (tests/callers/planner), on which voronoice answers: sets of gauges with their box, and the meshes
//! that the stand-in for delaunator hands out for them. Some sets have gauges outside the box more, which both sides drop.
//!
//!     planner COUNT SEED FOLDER     writes FOLDER/gauges.csv and FOLDER/meshes

use harness::expect::Facts;
use harness::generate::{areas, meshes, rng::Rng};
use harness::mesh::{Area, Mesh, EMPTY};
use harness::{reference, rust};
use std::fmt::Write;

fn main() {
    let words: Vec<String> = std::env::args().skip(1).collect();
    let number = |i: usize| words.get(i).and_then(|w: &String| w.replace(',', "").parse::<u64>().ok());
    let (Some(count), Some(seed), Some(folder)) = (number(0), number(1), words.get(2)) else {
        eprintln!("planner COUNT SEED FOLDER");
        std::process::exit(2)
    };
    rust::quiet();
    let (mut gauges, mut lent, mut made, mut more, mut tried) = (String::new(), String::new(), 0, 0, 0);
    while made < count {
        let r = &mut Rng::new(seed, tried);
        tried += 1;
        let mesh = meshes::sound(r);
        let area = areas::sound(r, &mesh);
        if !answers(&mesh, &area) {
            continue;
        }
        made += 1;
        more += write_gauges(&mut gauges, r, &mesh, &area);
        write_mesh(&mut lent, &mesh);
    }
    for (name, text) in [("gauges.csv", &gauges), ("meshes", &lent)] {
        std::fs::write(format!("{folder}/{name}"), text).unwrap_or_else(|e| panic!("{folder}/{name}: {e}"));
    }
    println!("{made} random meshes of {tried}, {more} gauges outside a box beside them");
}

/// Whether voronoice answers everything that the planner asks: no site is dropped, none is in no triangle (there `is_on_hull` panics), and
/// the build neither panics nor is refused here.
fn answers(m: &Mesh, area: &Area) -> bool {
    let inside = rust::area(area);
    let facts = Facts::of(m);
    facts.accepted()
        && facts.leftmost.iter().all(|&e| e != EMPTY)
        && (0..m.count()).all(|s| inside.is_inside(&rust::point(m.site(s))))
        && reference::build(m, area, &mut Default::default()).is_ok()
        && rust::build(&rust::Lent::new(m), area).is_ok()
}

/// The box and the sites, with up to three more outside the box between them; how many more.
fn write_gauges(to: &mut String, r: &mut Rng, m: &Mesh, area: &Area) -> usize {
    writeln!(to, "{:?},{:?},{:?},{:?}", area.x, area.y, area.width, area.height).unwrap();
    let mut more = 0;
    for s in 0..m.count() {
        if more < 3 && r.chance(1, 12) {
            let (x, y) = (area.x + r.signed() * area.width, area.y + area.height * r.pick(&[0.75, -0.75, 3.0]));
            if !rust::area(area).is_inside(&rust::point(harness::mesh::pt(x, y))) && x.abs() < 1e30 && y.abs() < 1e30 {
                writeln!(to, "{x:?},{y:?}").unwrap();
                more += 1;
            }
        }
        writeln!(to, "{:?},{:?}", m.site(s).x, m.site(s).y).unwrap();
    }
    more
}

fn write_mesh(to: &mut String, m: &Mesh) {
    let list = |l: &[u32]| l.iter().map(|&i| if i == EMPTY { "-1".to_string() } else { i.to_string() }).collect::<Vec<_>>().join(" ");
    writeln!(to, "{}\n{}\n{}\n{}", m.count(), list(&m.triangles), list(&m.halfedges), list(&m.hull)).unwrap();
}
