//! Meshes as texts, and the header.
#![allow(dead_code)]

use yelmuzard::*;

/// A file of the repository.
pub fn file(name: &str) -> Vec<u8> {
    let path = format!("{}/../../{name}", env!("CARGO_MANIFEST_DIR"));
    std::fs::read(&path).unwrap_or_else(|e| panic!("{path}: {e}"))
}

pub fn text(name: &str) -> String {
    String::from_utf8(file(name)).unwrap()
}

fn number(word: &str) -> f64 {
    match word.strip_prefix("2^") {
        Some(power) => 2f64.powi(power.parse().unwrap()),
        None => word.parse().unwrap_or_else(|e| panic!("{word}: {e}")),
    }
}

/// The box, the sites and the mesh of a text such as examples/square.txt.
pub fn read(name: &str) -> (BoundingBox, Vec<Point>, Triangulation) {
    let (mut bounding_box, mut sites, mut mesh) = (BoundingBox::default(), vec![], Triangulation::default());
    for line in text(name).lines() {
        let words: Vec<&str> = line.split('#').next().unwrap().split_whitespace().collect();
        let float = |i: usize| number(words[i]);
        let index = |i: usize| if words[i] == "E" { EMPTY } else { words[i].parse().unwrap() };
        match words.first() {
            Some(&"box") => bounding_box = BoundingBox::new(Point { x: float(1), y: float(2) }, float(3), float(4)),
            Some(&"site") => sites.push(Point { x: float(1), y: float(2) }),
            Some(&"triangle") => {
                mesh.triangles.extend((1..4).map(index));
                mesh.halfedges.extend((4..7).map(index));
            }
            Some(&"hull") => mesh.hull.extend((1..words.len()).map(index)),
            _ => {}
        }
    }
    (bounding_box, sites, mesh)
}

/// Built of such a text, no site dropped.
pub fn built(name: &str) -> Result<Voronoi, Refusal> {
    let (bounding_box, sites, mesh) = read(name);
    Voronoi::new(sites, bounding_box, mesh)
}

/// The number that a `#define` of the header has.
pub fn defined(name: &str) -> u32 {
    let begin = format!("#define {name} ");
    let header = text("include/voronoi.h");
    let line = header.lines().find_map(|l| l.strip_prefix(&begin)).unwrap_or_else(|| panic!("the header has no {name}"));
    line.split_whitespace().next().unwrap().parse().unwrap()
}
