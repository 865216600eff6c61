//! What a build needs, gathered.

use crate::{BoundingBox, Place, Point, Refusal, Triangulation, Voronoi};

/// Gathers what a build needs. Pieces are always clipped to the box: voronoice's other two modes are gone.
#[derive(Clone, Debug, Default)]
pub struct VoronoiBuilder {
    sites: Vec<Point>,
    bounding_box: BoundingBox,
    keep_outside: bool,
}

impl VoronoiBuilder {
    /// The gauges; y points down. (voronoice panics where there are none; here the build refuses.)
    pub fn set_sites(mut self, sites: Vec<Point>) -> Self {
        self.sites = sites;
        self
    }
    /// The box; [BoundingBox::default] otherwise.
    pub fn set_bounding_box(mut self, bounding_box: BoundingBox) -> Self {
        self.bounding_box = bounding_box;
        self
    }
    /// Keeps gauges outside the box: the pieces are still clipped to it, and each point of the box counts for the gauge nearest to it.
    /// (voronoice keeps them only where it does not clip.)
    pub fn keep_sites_outside(mut self) -> Self {
        self.keep_outside = true;
        self
    }
    /// Drops the gauges outside the box, has the others triangulated, and builds. No triangulation is part of the library: delaunator's
    /// three lists fit as they are. [Voronoi::kept] says which gauges were kept.
    ///
    /// A gauge whose coordinate is no number or is above 2^100 is refused (6), where voronoice drops it as one outside; its place is the gauge.
    pub fn build(self, triangulate: impl FnOnce(&[Point]) -> Triangulation) -> Result<Voronoi, Refusal> {
        let (bounding_box, keep_outside) = (self.bounding_box.clone(), self.keep_outside);
        let (sites, kept) = self.left(keep_outside)?;
        let mesh = triangulate(&sites);
        Ok(Voronoi::new(sites, bounding_box, mesh)?.gathered(kept, keep_outside))
    }
    /// Has all gauges triangulated, those outside the box too, and cuts: pieces that add up to the box ([Voronoi::cut]). A gauge outside may be the
    /// nearest to a part of the box, so that none is dropped.
    #[cfg(voronoi_cut)]
    pub fn cut(self, triangulate: impl FnOnce(&[Point]) -> Triangulation) -> Result<Voronoi, Refusal> {
        let bounding_box = self.bounding_box.clone();
        let (sites, kept) = self.left(true)?;
        let mesh = triangulate(&sites);
        Ok(Voronoi::cut(sites, bounding_box, mesh)?.gathered(kept, true))
    }
    /// The gauges that are left, with their numbers.
    fn left(self, all: bool) -> Result<(Vec<Point>, Vec<usize>), Refusal> {
        let mut kept = Vec::with_capacity(self.sites.len());
        for (i, site) in self.sites.iter().enumerate() {
            if all || self.bounding_box.is_inside(site).map_err(|r| r.at((r == Refusal::Coordinate).then_some(Place::Site(i))))? {
                kept.push(i);
            }
        }
        Ok((kept.iter().map(|&i| self.sites[i]).collect(), kept))
    }
}

impl From<&Voronoi> for VoronoiBuilder {
    /// A builder with the gauges and the box of what was built, as voronoice has it: for a step of a relaxation, or to build the same again.
    fn from(built: &Voronoi) -> Self {
        let builder = VoronoiBuilder::default().set_sites(built.sites().to_vec()).set_bounding_box(built.bounding_box().clone());
        if built.keeps_outside() {
            builder.keep_sites_outside()
        } else {
            builder
        }
    }
}

impl From<Voronoi> for VoronoiBuilder {
    fn from(built: Voronoi) -> Self {
        (&built).into()
    }
}
