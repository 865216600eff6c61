//! A stand-in for the crate delaunator: what the source's files use of it and nothing else. It triangulates nothing: `triangulate`, which
//! only the whole crate asks for, hands out meshes that were made before.

use std::io::{BufRead, BufReader, Lines};
use std::sync::Mutex;

pub const EMPTY: usize = usize::MAX;

#[derive(Clone, Debug, PartialEq)]
pub struct Point {
    pub x: f64,
    pub y: f64,
}

#[derive(Clone, Debug)]
pub struct Triangulation {
    pub triangles: Vec<usize>,
    pub halfedges: Vec<usize>,
    pub hull: Vec<usize>,
}

pub fn next_halfedge(e: usize) -> usize {
    if e % 3 == 2 {
        e - 2
    } else {
        e + 1
    }
}

/// The next mesh of the file that the variable MESH names: lines with how many sites it has, its triangles, its half-edges (-1 for none) and
/// its hull.
pub fn triangulate(points: &[Point]) -> Triangulation {
    static FILE: Mutex<Option<Lines<BufReader<std::fs::File>>>> = Mutex::new(None);
    let mut file = FILE.lock().unwrap();
    let lines = file.get_or_insert_with(|| {
        let name = std::env::var("MESH").expect("the variable MESH names the file of meshes");
        BufReader::new(std::fs::File::open(name).unwrap()).lines()
    });
    let mut list = || -> Vec<usize> {
        let line = lines.next().expect("a mesh for each set of sites").unwrap();
        line.split_whitespace().map(|w| if w == "-1" { EMPTY } else { w.parse().unwrap() }).collect()
    };
    assert_eq!(list(), [points.len()], "the mesh is of these sites");
    Triangulation { triangles: list(), halfedges: list(), hull: list() }
}
