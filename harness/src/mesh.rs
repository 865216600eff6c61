//! A mesh as it is lent: flat lists of numbers, with nothing promised about them.

pub const EMPTY: u32 = u32::MAX;

#[derive(Clone, Copy, Debug, PartialEq)]
pub struct Pt {
    pub x: f64,
    pub y: f64,
}

pub fn pt(x: f64, y: f64) -> Pt {
    Pt { x, y }
}

/// A box by its center and size.
#[derive(Clone, Copy, Debug, PartialEq)]
pub struct Area {
    pub x: f64,
    pub y: f64,
    pub width: f64,
    pub height: f64,
}

#[derive(Clone, Debug, Default, PartialEq)]
pub struct Mesh {
    /// x and y of each site in turn.
    pub sites: Vec<f64>,
    /// The start site of each half-edge.
    pub triangles: Vec<u32>,
    /// The pair of each half-edge, or `EMPTY`.
    pub halfedges: Vec<u32>,
    pub hull: Vec<u32>,
}

impl Mesh {
    pub fn count(&self) -> usize {
        self.sites.len() / 2
    }
    pub fn site(&self, s: usize) -> Pt {
        pt(self.sites[2 * s], self.sites[2 * s + 1])
    }
    pub fn triangle_count(&self) -> usize {
        self.triangles.len() / 3
    }
    /// The sites where a half-edge starts and ends.
    pub fn run(&self, e: usize) -> (u32, u32) {
        (self.triangles[e], self.triangles[next(e)])
    }
}

pub fn next(e: usize) -> usize {
    if e % 3 == 2 {
        e - 2
    } else {
        e + 1
    }
}

pub fn vertex_room(m: &Mesh) -> usize {
    7 * m.triangle_count() + 5 * m.hull.len() + 4
}

pub fn index_room(m: &Mesh) -> usize {
    12 * m.triangle_count() + 8 * m.hull.len() + 4
}

pub fn cut_vertex_room(m: &Mesh) -> usize {
    7 * m.triangle_count() + 2 * m.hull.len() + 4
}

pub fn cut_index_room(m: &Mesh) -> usize {
    16 * m.triangle_count() + 11 * m.hull.len()
}
