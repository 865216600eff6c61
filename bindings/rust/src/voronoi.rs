//! The pieces of all gauges.

use crate::calls::{self, Cells, Mesh, Slices};
use crate::neighbors::Neighbors;
use crate::{mesh, sys, BoundingBox, Place, Point, Refusal, Triangulation, VoronoiCell};

/// The pieces of all gauges. [crate::VoronoiBuilder] makes one, or [Voronoi::new] where the mesh is at hand.
#[derive(Clone, Debug)]
pub struct Voronoi {
    bounding_box: BoundingBox,
    triangulation: Triangulation,
    // of each site its number in the builder's list, and whether that list keeps sites outside
    kept: Vec<usize>,
    keep_outside: bool,
    // the mesh in the library's numbers, and the leftmost half-edge of each site
    sites: Vec<Point>,
    triangles: Vec<u32>,
    halfedges: Vec<u32>,
    hull: Vec<u32>,
    leftmost: Vec<u32>,
    // what was built
    vertices: Vec<Point>,
    indexes: Vec<u32>,
    offsets: Vec<u32>,
    counts: [u32; sys::COUNTS],
    // the neighbours in the triangles, and those that are left in the box
    joined: Neighbors,
    neighbors: Neighbors,
}

/// The room that is lent, and how it is to be used.
struct Room {
    vertices: usize,
    indexes: usize,
}

impl Voronoi {
    /// Builds over a mesh that is at hand. No gauge is dropped. An `Err` has its place ([Refusal::place]).
    pub fn new(sites: Vec<Point>, bounding_box: BoundingBox, triangulation: Triangulation) -> Result<Self, Refusal> {
        let room = |t: usize, h: usize| Room { vertices: 7 * t + 5 * h + 4, indexes: 12 * t + 8 * h + 4 };
        Self::over(sites, bounding_box, triangulation, room, calls::build)
    }
    /// Cuts the pieces so that they add up to the box, over a mesh that is at hand: by theorem no corner is lost and no piece is short, where a
    /// build does what voronoice does. No gauge is dropped.
    ///
    /// ```
    /// use yelmuzard::*;
    ///
    /// # fn main() -> Result<(), Refusal> {
    /// # let sites = vec![Point { x: 0.0, y: 0.0 }, Point { x: 1.0, y: 0.0 }, Point { x: 0.0, y: 1.0 }];
    /// # let mesh = Triangulation { triangles: vec![0, 2, 1], halfedges: vec![EMPTY; 3], hull: vec![0, 2, 1] };
    /// // a box that lies within the piece of gauge 0: a build has no piece at all there, as voronoice has none
    /// let within = BoundingBox::new_centered_square(0.25);
    /// assert_eq!(Voronoi::cut(sites.clone(), within.clone(), mesh.clone())?.areas()?, [0.0625, 0.0, 0.0]);
    /// assert_eq!(Voronoi::new(sites, within, mesh)?.areas()?, [0.0; 3]);
    /// # Ok(())
    /// # }
    /// ```
    #[cfg(voronoi_cut)]
    pub fn cut(sites: Vec<Point>, bounding_box: BoundingBox, triangulation: Triangulation) -> Result<Self, Refusal> {
        let room = |t: usize, h: usize| Room { vertices: sys::cut_vertex_room(t, h), indexes: sys::cut_index_room(t, h) };
        let mut cut = Self::over(sites, bounding_box, triangulation, room, |b, m, s| {
            s.counts[sys::COUNT_VERTICES] = calls::cut(b, m, s)?;
            Ok(())
        })?;
        cut.read_corners()?;
        Ok(cut)
    }
    fn over(
        sites: Vec<Point>,
        bounding_box: BoundingBox,
        triangulation: Triangulation,
        room: impl Fn(usize, usize) -> Room,
        make: impl Fn(&BoundingBox, Mesh<'_>, &mut Slices<'_>) -> Result<(), Refusal>,
    ) -> Result<Self, Refusal> {
        let (triangles, halfedges) = (mesh::narrow(&triangulation.triangles), mesh::narrow(&triangulation.halfedges));
        let hull = mesh::narrow(&triangulation.hull);
        // more than the limits is refused before any room is looked at
        let (n, t, h) = (sites.len().min(sys::MOST_SITES), (triangles.len() / 3).min(sys::MOST_TRIANGLES), hull.len().min(sys::MOST_SITES));
        let room = room(t, h);
        let mut leftmost = vec![0; n];
        let mut vertices = vec![Point::default(); room.vertices];
        let mut indexes = vec![0; room.indexes];
        let mut offsets = vec![0; n + 1];
        let mut counts = [0; sys::COUNTS];
        let lent = Mesh { sites: &sites, triangles: &triangles, halfedges: &halfedges, hull: &hull };
        let mut written =
            Slices { work: &mut leftmost, vertices: &mut vertices, indexes: &mut indexes, offsets: &mut offsets, counts: &mut counts };
        if let Err(refusal) = make(&bounding_box, lent, &mut written) {
            // a cutting's own refusal has no place: the build's is of another rule
            let (number, kind, [place, from, to]) = calls::why(&bounding_box, lent, &mut written);
            return Err(refusal.at(match kind {
                _ if number != refusal.number() => None,
                sys::WHY_SITE => Some(Place::Site(place)),
                sys::WHY_TRIANGLE => Some(Place::Triangle(place)),
                sys::WHY_HALFEDGE => Some(Place::HalfEdge(place)),
                sys::WHY_HULL_PLACE => Some(Place::HullPlace(place)),
                sys::WHY_EDGE => Some(Place::Edge { site: place, from, to }),
                _ => None,
            }));
        }
        // the rest of the room goes back
        vertices.truncate(counts[sys::COUNT_VERTICES] as usize);
        vertices.shrink_to_fit();
        indexes.truncate(offsets[n] as usize);
        indexes.shrink_to_fit();
        let joined = Neighbors::of(lent, Cells { offsets: &[], indexes: &[] })?;
        let neighbors = Neighbors::of(lent, Cells { offsets: &offsets, indexes: &indexes })?;
        let kept = (0..n).collect();
        Ok(Self {
            bounding_box,
            triangulation,
            kept,
            keep_outside: true,
            sites,
            triangles,
            halfedges,
            hull,
            leftmost,
            vertices,
            indexes,
            offsets,
            counts,
            joined,
            neighbors,
        })
    }
    /// The owners of the box's corners, read from the pieces: the lowest gauge whose piece has it as a corner.
    #[cfg(voronoi_cut)]
    fn read_corners(&mut self) -> Result<(), Refusal> {
        let corners = self.bounding_box.corners()?;
        let owner =
            |corner: &Point| self.iter_cells().find(|cell| cell.iter_vertices().any(|v| v == corner)).map(|cell| cell.site() as u32);
        let owners = corners.map(|corner| owner(&corner));
        for (place, owner) in owners.iter().enumerate() {
            self.counts[sys::COUNT_OWNERS + place] = owner.unwrap_or(sys::EMPTY);
        }
        self.counts[sys::COUNT_LOST] = owners.iter().filter(|owner| owner.is_none()).count() as u32;
        Ok(())
    }
    /// For each gauge its number in the list that the builder was given: those that are missing were dropped as outside the box.
    ///
    /// ```
    /// use yelmuzard::*;
    ///
    /// # fn main() -> Result<(), Refusal> {
    /// let gauges = [(9.0, 9.0), (0.0, 0.0), (1.0, 0.0), (0.0, 1.0)].map(|(x, y)| Point { x, y });
    /// let builder = VoronoiBuilder::default().set_sites(gauges.to_vec()).set_bounding_box(BoundingBox::new_centered_square(4.0));
    /// let mesh = Triangulation { triangles: vec![0, 2, 1], halfedges: vec![EMPTY; 3], hull: vec![0, 2, 1] };
    /// assert_eq!(builder.build(|_| mesh)?.kept(), [1, 2, 3]);
    /// # Ok(())
    /// # }
    /// ```
    pub fn kept(&self) -> &[usize] {
        &self.kept
    }
    /// The gauges, without those that the builder dropped.
    pub fn sites(&self) -> &[Point] {
        &self.sites
    }
    /// The piece of a gauge. Panics where there is no such gauge, as an index does.
    pub fn cell(&self, site: usize) -> VoronoiCell<'_> {
        assert!(site < self.sites.len(), "there is no site {site} of {}", self.sites.len());
        VoronoiCell::new(site, self)
    }
    /// The pieces of all gauges, in their order.
    pub fn iter_cells(&self) -> impl ExactSizeIterator<Item = VoronoiCell<'_>> + DoubleEndedIterator + Clone {
        (0..self.sites.len()).map(move |site| VoronoiCell::new(site, self))
    }
    /// The corners of all pieces: the circumcenters of the triangles, the box's four corners, then the points that were added.
    pub fn vertices(&self) -> &[Point] {
        &self.vertices
    }
    /// The corners of each piece by their places in [Voronoi::vertices], made anew at each call. (voronoice lends what it keeps.)
    pub fn cells(&self) -> Vec<Vec<usize>> {
        self.iter_cells().map(|c| c.triangles().iter().map(|&v| v as usize).collect()).collect()
    }
    /// The mesh.
    pub fn triangulation(&self) -> &Triangulation {
        &self.triangulation
    }
    /// The box.
    pub fn bounding_box(&self) -> &BoundingBox {
        &self.bounding_box
    }
    /// The gauge found nearest to each corner of the box: top left, bottom left, bottom right, top right.
    pub fn corner_owners(&self) -> [usize; 4] {
        [0, 1, 2, 3].map(|corner| self.counts[sys::COUNT_OWNERS + corner] as usize)
    }
    /// How many corners of the box stand in no piece. (Areas can be short of the box although none is lost: add them up.)
    pub fn lost_corners(&self) -> usize {
        self.counts[sys::COUNT_LOST] as usize
    }
}

// what the parts of this crate read
impl Voronoi {
    /// As the builder gathered it.
    pub(crate) fn gathered(self, kept: Vec<usize>, keep_outside: bool) -> Self {
        Self { kept, keep_outside, ..self }
    }
    /// Whether no site was dropped for being outside.
    pub(crate) fn keeps_outside(&self) -> bool {
        self.keep_outside
    }
    /// The mesh as it is lent.
    pub(crate) fn mesh(&self) -> Mesh<'_> {
        Mesh { sites: &self.sites, triangles: &self.triangles, halfedges: &self.halfedges, hull: &self.hull }
    }
    /// The cells as they are lent.
    pub(crate) fn lent_cells(&self) -> Cells<'_> {
        Cells { offsets: &self.offsets, indexes: &self.indexes }
    }
    /// The leftmost half-edge of a site, EMPTY where none ends there.
    pub(crate) fn leftmost(&self, site: usize) -> u32 {
        self.leftmost[site]
    }
    /// The entries of a cell.
    pub(crate) fn entries(&self, site: usize) -> &[u32] {
        &self.indexes[self.offsets[site] as usize..self.offsets[site + 1] as usize]
    }
    /// The neighbours in the triangles.
    pub(crate) fn joined(&self) -> &Neighbors {
        &self.joined
    }
    /// The neighbours in the box.
    pub(crate) fn neighbors(&self) -> &Neighbors {
        &self.neighbors
    }
}
