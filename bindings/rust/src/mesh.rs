//! Points, and the mesh over them.

use crate::{calls, sys, Refusal};

/// An index that is none: an unpaired half-edge.
pub const EMPTY: usize = usize::MAX;

/// A point of the plane; y points down.
#[derive(Clone, Copy, Debug, Default, PartialEq)]
#[repr(C)] // lent to the library as its two numbers
pub struct Point {
    /// to the right
    pub x: f64,
    /// downwards
    pub y: f64,
}

/// The mean of some points, as voronoice's relaxation takes it over the corners of a piece; refused (1) where there are none.
pub fn centroid(points: &[Point]) -> Result<Point, Refusal> {
    calls::centroid(points)
}

/// The mesh of the gauges, with delaunator's names and in its order: triangles run counter-clockwise with y downward.
/// A mesh wound the other way is not refused, and its pieces are wrong: [crate::Voronoi::turned_triangles] tells.
#[derive(Clone, Debug, Default, PartialEq, Eq)]
pub struct Triangulation {
    /// the site where each half-edge starts, three half-edges to a triangle
    pub triangles: Vec<usize>,
    /// the pair of each half-edge, or [EMPTY]
    pub halfedges: Vec<usize>,
    /// the sites round the border, in the direction of the unpaired half-edges
    pub hull: Vec<usize>,
}

/// A list in the library's numbers. One that does not fit into them is no site and no half-edge, nor is what stands for it; it is not
/// [EMPTY] either, so that the library refuses what it is.
pub(crate) fn narrow(list: &[usize]) -> Vec<u32> {
    let beyond = sys::EMPTY - 1;
    list.iter().map(|&i| if i == EMPTY { sys::EMPTY } else { u32::try_from(i).map_or(beyond, |n| n.min(beyond)) }).collect()
}
