//! The piece of one gauge.

use crate::{calls, sys, Point, Refusal, Voronoi};
use std::fmt;

/// The piece of one gauge.
#[derive(Clone, Copy)]
pub struct VoronoiCell<'v> {
    site: usize,
    voronoi: &'v Voronoi,
}

impl<'v> VoronoiCell<'v> {
    /// Of a site that is there.
    pub(crate) fn new(site: usize, voronoi: &'v Voronoi) -> Self {
        Self { site, voronoi }
    }
    /// The pieces that it is one of.
    pub(crate) fn voronoi(&self) -> &'v Voronoi {
        self.voronoi
    }
    /// Its gauge's number.
    pub fn site(&self) -> usize {
        self.site
    }
    /// Where its gauge stands.
    pub fn site_position(&self) -> &'v Point {
        &self.voronoi.sites()[self.site]
    }
    /// Its corners by their places in [Voronoi::vertices], in order round it; none where it is empty. (voronoice: `usize`.)
    pub fn triangles(&self) -> &'v [u32] {
        self.voronoi.entries(self.site)
    }
    /// Its corners, counter-clockwise with y downward.
    pub fn iter_vertices(&self) -> impl ExactSizeIterator<Item = &'v Point> + DoubleEndedIterator + Clone {
        let vertices = self.voronoi.vertices();
        self.triangles().iter().map(move |&v| &vertices[v as usize])
    }
    /// The gauges whose pieces share a side with it. (voronoice: a NeighborSiteIterator.)
    pub fn iter_neighbors(&self) -> impl ExactSizeIterator<Item = usize> + DoubleEndedIterator + Clone + 'v {
        self.voronoi.neighbors().list(self.site).iter().map(|&site| site as usize)
    }
    /// The gauges that a side of a triangle joins to its own. (voronoice: TopologicalNeighborSiteIterator.)
    pub fn iter_topological_neighbors(&self) -> impl ExactSizeIterator<Item = usize> + DoubleEndedIterator + Clone + 'v {
        self.voronoi.joined().list(self.site).iter().map(|&site| site as usize)
    }
    /// The gauges on the way to a point, its own first: each next the nearest neighbour, while that is nearer. Refused (5) where the point's
    /// coordinates are no numbers or above 2^100. (voronoice panics or walks on NaN there.)
    ///
    /// It costs a check of the whole mesh and two lists as long as there are gauges, some 5 ms at 65,536, however short the path is: for the gauges of
    /// many points ask [Voronoi::ends], one check for all of them.
    ///
    /// ```
    /// use yelmuzard::*;
    ///
    /// # fn main() -> Result<(), Refusal> {
    /// # let sites = vec![Point { x: 0.0, y: 0.0 }, Point { x: 1.0, y: 0.0 }, Point { x: 0.0, y: 1.0 }];
    /// # let mesh = Triangulation { triangles: vec![0, 2, 1], halfedges: vec![EMPTY; 3], hull: vec![0, 2, 1] };
    /// let voronoi = Voronoi::new(sites, BoundingBox::new_centered_square(4.0), mesh)?;
    /// let path = voronoi.cell(2).iter_path(Point { x: 1.5, y: 0.0 })?;
    /// assert_eq!(path.collect::<Vec<usize>>(), [2, 1]);
    /// # Ok(())
    /// # }
    /// ```
    pub fn iter_path(&self, to: Point) -> Result<impl ExactSizeIterator<Item = usize> + DoubleEndedIterator + Clone, Refusal> {
        let n = self.voronoi.sites().len();
        // no gauge stands twice on a path, so that this room is enough for all of it
        let (mut work, mut path) = (vec![0; n], vec![0; n]);
        let (count, ended) = calls::path(self.voronoi.mesh(), self.site as u32, to, &mut work, &mut path)?;
        debug_assert!(ended);
        path.truncate(count);
        Ok(path.into_iter().map(|site| site as usize))
    }
    /// Whether its gauge is on the mesh's border, or a point that was added is a corner of it. As in voronoice the box's first corner, top
    /// left, does not count by itself. A gauge in no triangle is on no border. (voronoice panics there.)
    pub fn is_on_hull(&self) -> bool {
        let (mesh, leftmost) = (self.voronoi.mesh(), self.voronoi.leftmost(self.site));
        (leftmost != sys::EMPTY && mesh.halfedges[leftmost as usize] == sys::EMPTY)
            || self.triangles().iter().any(|&v| v as usize > mesh.triangles.len() / 3)
    }
}

impl fmt::Debug for VoronoiCell<'_> {
    fn fmt(&self, f: &mut fmt::Formatter<'_>) -> fmt::Result {
        f.debug_struct("VoronoiCell")
            .field("site", &self.site)
            .field("site_position", self.site_position())
            .field("triangles", &self.triangles())
            .finish_non_exhaustive()
    }
}
