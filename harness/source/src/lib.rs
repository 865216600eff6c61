//! The four source files, read where they stand and unchanged, over stand-ins for the rest of their crate.
//! Below each `include!` stand only doors to what its module keeps private.
#![allow(unused, unexpected_cfgs)]

pub use delaunator::{Point, Triangulation, EMPTY};

pub mod utils {
    include!(concat!(env!("VORONOI_SOURCE"), "/utils.rs"));

    pub const TOLERANCE: f64 = EQ_EPSILON;
}

pub mod bounding_box {
    include!(concat!(env!("VORONOI_SOURCE"), "/bounding_box.rs"));

    pub mod open {
        use super::*;

        pub type Points = (Option<Point>, Option<Point>);

        pub fn which_edge(area: &BoundingBox, point: &Point) -> Option<usize> {
            area.which_edge(point)
        }
        pub fn intersect_line(area: &BoundingBox, a: &Point, b: &Point) -> Points {
            area.intersect_line(a, b)
        }
        pub fn project_ray(area: &BoundingBox, point: &Point, direction: &Point) -> Points {
            area.project_ray(point, direction)
        }
        pub fn order_points_on_ray(point: &Point, direction: &Point, a: Option<Point>, b: Option<Point>) -> Points {
            super::order_points_on_ray(point, direction, a, b)
        }
    }
}

pub mod iterator {
    include!(concat!(env!("VORONOI_SOURCE"), "/iterator.rs"));
}

pub mod cell_builder {
    include!(concat!(env!("VORONOI_SOURCE"), "/cell_builder.rs"));

    pub mod open {
        use super::*;

        pub fn leftmost(mesh: &Triangulation, sites: usize) -> Vec<usize> {
            calculate_incoming_edges(mesh, sites)
        }
        pub fn owners(builder: &CellBuilder) -> Vec<usize> {
            builder.corner_ownership.clone()
        }
        pub fn extend(builder: &mut CellBuilder, edge: usize) -> usize {
            builder.extend_voronoi_vertex(edge)
        }
        pub fn clip_edge(builder: &mut CellBuilder, a: usize, b: usize) -> (Option<usize>, Option<usize>) {
            builder.clip_voronoi_edge(a, b)
        }
        pub fn vertices(builder: &CellBuilder) -> usize {
            builder.vertices.len()
        }
    }
}

pub use bounding_box::BoundingBox;

#[derive(Debug, Clone, Copy, PartialEq)]
pub enum ClipBehavior {
    None,
    Clip,
}

/// What the iterators read of a built diagram.
#[derive(Clone, Debug)]
pub struct Voronoi {
    pub sites: Vec<Point>,
    pub triangulation: Triangulation,
    pub site_to_incoming_leftmost_halfedge: Vec<usize>,
    pub cells: Vec<Vec<usize>>,
}

pub struct VoronoiCell<'v> {
    entries: &'v [usize],
}

impl Voronoi {
    pub fn sites(&self) -> &Vec<Point> {
        &self.sites
    }
    pub fn triangulation(&self) -> &Triangulation {
        &self.triangulation
    }
    pub fn cell(&self, site: usize) -> VoronoiCell<'_> {
        VoronoiCell { entries: &self.cells[site] }
    }
}

impl<'v> VoronoiCell<'v> {
    pub fn triangles(&self) -> &'v [usize] {
        self.entries
    }
}
