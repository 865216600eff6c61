//! What the source's own release build answers; its panics caught and told apart by their messages.

use crate::mesh::{Area, Mesh, Pt};
use source::bounding_box::BoundingBox;
use source::cell_builder::CellBuilder;
use source::{iterator, utils, ClipBehavior, Point, Triangulation, Voronoi, EMPTY};
use std::panic::{catch_unwind, AssertUnwindSafe};

pub fn point(p: Pt) -> Point {
    Point { x: p.x, y: p.y }
}

pub fn back(p: &Point) -> Pt {
    Pt { x: p.x, y: p.y }
}

pub fn area(a: &Area) -> BoundingBox {
    BoundingBox::new(Point { x: a.x, y: a.y }, a.width, a.height)
}

fn wide(list: &[u32]) -> Vec<usize> {
    list.iter().map(|&i| if i == u32::MAX { EMPTY } else { i as usize }).collect()
}

pub fn narrow(list: &[usize]) -> Vec<u32> {
    list.iter().map(|&i| if i == EMPTY { u32::MAX } else { i as u32 }).collect()
}

/// A mesh in the source's own types.
pub struct Lent {
    pub sites: Vec<Point>,
    pub mesh: Triangulation,
}

impl Lent {
    pub fn new(m: &Mesh) -> Lent {
        Lent {
            sites: m.sites.chunks_exact(2).map(|c| Point { x: c[0], y: c[1] }).collect(),
            mesh: Triangulation {
                triangles: wide(&m.triangles),
                halfedges: wide(&m.halfedges),
                hull: wide(&m.hull),
            },
        }
    }

    pub fn circumcenters(&self) -> Vec<Point> {
        let corner = |e: usize| &self.sites[self.mesh.triangles[e]];
        (0..self.mesh.triangles.len() / 3)
            .map(|t| utils::cicumcenter(corner(3 * t), corner(3 * t + 1), corner(3 * t + 2)))
            .collect()
    }

    pub fn leftmost(&self) -> Vec<u32> {
        narrow(&source::cell_builder::open::leftmost(&self.mesh, self.sites.len()))
    }
}

#[derive(Clone, Debug, Default, PartialEq)]
pub struct Built {
    pub owners: Vec<u32>,
    pub leftmost: Vec<u32>,
    pub vertices: Vec<Pt>,
    pub cells: Vec<Vec<u32>>,
}

impl Default for Pt {
    fn default() -> Pt {
        Pt { x: 0.0, y: 0.0 }
    }
}

/// 13 or 14 for two of the source's three kinds of panic; the third is proved never to be met, and it is told in words, as any other panic is.
pub fn panic_number(message: &str) -> Result<u32, String> {
    if message.starts_with("Edge crosses box, intersection must exist.") {
        Ok(13)
    } else if message.starts_with("Two intersection points need to occur") {
        Ok(14)
    } else if message.contains("clipped value is expected to be on the edge of the bounding box") {
        Err(format!("a clipped vertex on no side, which is proved never to be: {message}"))
    } else {
        Err(message.to_string())
    }
}

/// Panics are expected here and answered, so the runtime need not print them.
pub fn quiet() {
    std::panic::set_hook(Box::new(|_| {}));
}

fn caught<T>(run: impl FnOnce() -> T) -> Result<T, String> {
    catch_unwind(AssertUnwindSafe(run)).map_err(|payload| {
        if let Some(s) = payload.downcast_ref::<String>() {
            s.clone()
        } else if let Some(s) = payload.downcast_ref::<&str>() {
            s.to_string()
        } else {
            "a panic with no message".to_string()
        }
    })
}

/// The build in a box. `Err(Ok(n))` is a refusal, `Err(Err(words))` a panic with no number.
pub fn build(lent: &Lent, a: &Area) -> Result<Built, Result<u32, String>> {
    let outcome = caught(|| {
        let builder = CellBuilder::new(&lent.mesh, &lent.sites, lent.circumcenters(), area(a), ClipBehavior::Clip);
        let owners = source::cell_builder::open::owners(&builder);
        let built = builder.build();
        Built {
            owners: narrow(&owners),
            leftmost: narrow(&built.site_to_incoming_leftmost_halfedge),
            vertices: built.vertices.iter().map(back).collect(),
            cells: built.cells.iter().map(|c| narrow(c)).collect(),
        }
    });
    outcome.map_err(|message| panic_number(&message))
}

/// What the source's own steps did with the points that they were to add: how often a step was taken and how many extensions, first
/// crossings and second crossings were a vertex that was there before; and the vertices that this leaves.
#[derive(Clone, Debug, PartialEq)]
pub struct Steps {
    pub taken: usize,
    pub reused: [u32; 3],
    pub vertices: usize,
}

/// The extension of each hull place and then these edges put to the source's own steps, one after the other.
pub fn steps(lent: &Lent, a: &Area, edges: &[(u32, u32)]) -> Result<Steps, String> {
    use source::cell_builder::open;
    caught(|| {
        let mut builder = CellBuilder::new(&lent.mesh, &lent.sites, lent.circumcenters(), area(a), ClipBehavior::Clip);
        builder.calculate_corners();
        let leftmost = open::leftmost(&lent.mesh, lent.sites.len());
        let hull = &lent.mesh.hull;
        let mut seen = Steps { taken: 0, reused: [0; 3], vertices: open::vertices(&builder) };
        let mut see = |kind: usize, at: usize| {
            seen.taken += 1;
            if at < seen.vertices {
                seen.reused[kind] += 1;
            } else {
                seen.vertices += 1;
            }
        };
        for place in 0..hull.len() {
            see(0, open::extend(&mut builder, leftmost[hull[(place + 1) % hull.len()]]));
        }
        for &(from, to) in edges {
            let (first, second) = open::clip_edge(&mut builder, from as usize, to as usize);
            first.into_iter().for_each(|at| see(1, at));
            second.into_iter().for_each(|at| see(2, at));
        }
        seen.vertices = open::vertices(&builder);
        seen
    })
}

/// A mesh with its leftmost table and cells, as the source's iterators want it.
pub fn diagram(lent: &Lent, cells: &[Vec<u32>]) -> Voronoi {
    Voronoi {
        sites: lent.sites.clone(),
        triangulation: lent.mesh.clone(),
        site_to_incoming_leftmost_halfedge: source::cell_builder::open::leftmost(&lent.mesh, lent.sites.len()),
        cells: cells.iter().map(|c| wide(c)).collect(),
    }
}

pub fn walk(v: &Voronoi, site: usize) -> Vec<u32> {
    let first = v.site_to_incoming_leftmost_halfedge[site];
    narrow(&iterator::EdgesAroundSiteIterator::new(&v.triangulation, first).collect::<Vec<_>>())
}

pub fn neighbours(v: &Voronoi, site: usize) -> Vec<u32> {
    narrow(&iterator::TopologicalNeighborSiteIterator::new(v, site).collect::<Vec<_>>())
}

pub fn clipped_neighbours(v: &Voronoi, site: usize) -> Vec<u32> {
    narrow(&iterator::NeighborSiteIterator::new(v, site).collect::<Vec<_>>())
}

pub fn path(v: &Voronoi, site: usize, to: Pt) -> Vec<u32> {
    narrow(&iterator::shortest_path_iter(v, site, point(to)).collect::<Vec<_>>())
}

pub fn shared_edge(v: &Voronoi, a: u32, b: u32) -> u32 {
    narrow(&[utils::delaunay_edge_from_voronoi_edge(&v.triangulation, a as usize, b as usize)])[0]
}

pub fn cells_share(v: &Voronoi, a: usize, b: usize) -> bool {
    utils::has_common_voronoi_edge(v, a, b)
}
