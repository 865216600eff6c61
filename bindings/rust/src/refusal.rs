//! Why the library refuses.

use std::fmt;
use std::hash::{Hash, Hasher};

/// Where a mesh offends, as the library's `voronoi_why` names it: the lowest offender of the rule that is broken.
#[derive(Clone, Copy, Debug, PartialEq, Eq, Hash)]
#[non_exhaustive]
pub enum Place {
    /// a gauge: of the list that the builder was given where it refuses (6), else of those that were built
    Site(usize),
    /// a triangle
    Triangle(usize),
    /// a half-edge
    HalfEdge(usize),
    /// a place of the hull
    HullPlace(usize),
    /// an edge of the ring of a gauge's piece, from one vertex to another
    Edge {
        /// the gauge
        site: usize,
        /// the vertex that it runs from
        from: usize,
        /// the vertex that it runs to
        to: usize,
    },
}

impl fmt::Display for Place {
    fn fmt(&self, f: &mut fmt::Formatter<'_>) -> fmt::Result {
        match self {
            Place::Site(i) => write!(f, "site {i}"),
            Place::Triangle(i) => write!(f, "triangle {i}"),
            Place::HalfEdge(i) => write!(f, "half-edge {i}"),
            Place::HullPlace(i) => write!(f, "hull place {i}"),
            Place::Edge { site, from, to } => write!(f, "site {site}, the edge from vertex {from} to vertex {to}"),
        }
    }
}

/// Why the library refuses: a number of include/voronoi.h, with words and, where there is one, a place. `docs/use/RULES.md` of the repository has an
/// example of each. Two refusals are equal where their numbers are, wherever they were met: `refusal == Refusal::Hull`.
///
/// ```
/// use yelmuzard::*;
///
/// let sites = vec![Point { x: 0.0, y: 0.0 }, Point { x: 1.0, y: 0.0 }, Point { x: 0.0, y: 1.0 }];
/// let mesh = Triangulation { triangles: vec![0, 2, 7], halfedges: vec![EMPTY; 3], hull: vec![0, 2, 1] };
/// let refusal = Voronoi::new(sites, BoundingBox::default(), mesh).unwrap_err();
/// assert_eq!((refusal, refusal.place()), (Refusal::Triangle, Some(Place::Triangle(0))));
/// ```
#[derive(Clone, Copy, Debug)]
pub struct Refusal {
    number: u32,
    place: Option<Place>,
}

impl PartialEq for Refusal {
    fn eq(&self, other: &Self) -> bool {
        self.number == other.number
    }
}

impl Eq for Refusal {}

impl Hash for Refusal {
    fn hash<H: Hasher>(&self, state: &mut H) {
        self.number.hash(state);
    }
}

macro_rules! refusals {
    ($($name:ident = $number:literal, $wrong:literal, $help:literal;)*) => {
        #[allow(non_upper_case_globals)] // they read as the variants of an enum, which they were
        impl Refusal {
            $(#[doc = concat!("(", $number, ") ", $wrong, "; ", $help)] pub const $name: Refusal = Refusal { number: $number, place: None };)*
            /// What is wrong, in the words of `voronoi_words`, and after a semicolon what to do about it.
            pub fn words(self) -> &'static str {
                match self.number {
                    $($number => concat!($wrong, "; ", $help),)*
                    _ => "no such number; crate and archive are of different versions: make the archive anew",
                }
            }
        }
    };
}

refusals! {
    Count = 1, "the sites, triangles or hull sites are too few or too many, or a list's length does not fit",
        "there must be 3 to 65,536 sites, 1 to 131,072 triangles, 3 half-edges for each, and 3 hull sites or more";
    Room = 2, "a lent slice is shorter than its room", "this crate lends enough: please report it";
    Box = 3, "the box has a size that is not above 0, edges out of order, or a number that is too large or not finite",
        "give its centre and its size, or its edges by `from_edges`: left, top, right, bottom";
    Site = 4, "there is no site of that number", "sites are numbered from 0";
    Destination = 5, "the destination has a coordinate above 2^100 or not finite", "look for a missing value that became a NaN";
    Coordinate = 6, "a point has a coordinate above 2^100 or not finite",
        "look for a missing value that became a NaN, or a fill value such as 1e36";
    Triangle = 7, "a triangle names a site that is not there, or one site twice",
        "look for indexes that start at 1, or for sites that were dropped after the mesh was made";
    Pairing = 8, "two half-edges that should be each other's pair are not",
        "the list has the numbers of half-edges, not of triangles; two triangles of one side must be wound alike";
    Hull = 9, "the hull is not the round of all unpaired half-edges",
        "walk the unpaired half-edges, in the triangles' direction; a part that is not connected must be built by itself";
    Fan = 10, "the triangles at a site are not one connected fan", "look for triangles that were left out";
    Circumcenter = 11, "a triangle is so flat that its circumcenter is not finite or is above 2^400",
        "move the sites to their middle before triangulating, or leave out triangles of no area";
    Extension = 12, "a hull edge is so short that it has no direction", "take two such sites as one, or use a smaller unit";
    NoCrossing = 13, "an edge that leaves the box was not found to cross it",
        "make the box larger by a fraction of the unit such as .375, another on each side (frequent on whole-metre grids)";
    OneCrossing = 14, "an edge with both ends outside the box was found to cross it once",
        "keep the box, and its distance from the sites, below 10^9 units, or make it larger by an odd fraction";
    Offsets = 16, "the cells' offsets do not cut the list of indexes", "lend the offsets of a build without their cleared tail";
    Form = 17, "the form is broken: a record cut, out of order, or one too many", "tools/mesh decode says at which byte and why";
    Entry = 18, "a cell names a vertex that is not there", "lend vertices, offsets and indexes of one build";
    Twice = 19, "two half-edges run the same way between the same two sites",
        "look for a triangle that is there twice, or that is wound against its neighbour";
    Unclipped = 20, "the form has no box: the unclipped mode is gone", "put a box into the text of the form and encode it again";
    Points = 21, "the file is no MultiPoint in Well-Known Binary: a wrong mark or type, an early end, or bytes left over",
        "write it without Z, M and SRID";
    Grid = 22, "a site has a whole coordinate below -8,192 or above 8,192", "measure from the middle of the map, or in a larger unit";
    Flip = 23, "the half-edge cannot be flipped, or the table is not the leftmost table",
        "name one between two triangles whose far corners are not joined, and lend the table that a check leaves";
    Corner = 24, "a vertex that a cell names has a coordinate above 2^400 or not finite", "lend the vertices of a build that was accepted";
    Border = 25, "the border does not turn exactly once, the right way", "turn the mesh, or triangulate again where gauges were moved";
}

impl Refusal {
    /// The refusal of a number, as a C call answers it; none for 0, which accepts.
    pub fn of_number(number: u32) -> Option<Refusal> {
        (number != 0).then_some(Refusal { number, place: None })
    }
    /// Its number.
    pub fn number(self) -> u32 {
        self.number
    }
    /// Where it was met: the lowest offender, as `voronoi_why` names it. None where the number says it all (1 to 5), and where a query was refused.
    pub fn place(self) -> Option<Place> {
        self.place
    }
    /// The same, met there.
    pub(crate) fn at(self, place: Option<Place>) -> Refusal {
        Refusal { place, ..self }
    }
    /// A call's answer: nothing, or why it refuses.
    pub(crate) fn of(answer: u32) -> Result<(), Refusal> {
        Refusal::of_number(answer).map_or(Ok(()), Err)
    }
}

impl fmt::Display for Refusal {
    fn fmt(&self, f: &mut fmt::Formatter<'_>) -> fmt::Result {
        match self.place {
            Some(place) => write!(f, "refused {} at {place}: {}", self.number(), self.words()),
            None => write!(f, "refused {}: {}", self.number(), self.words()),
        }
    }
}

impl std::error::Error for Refusal {}
