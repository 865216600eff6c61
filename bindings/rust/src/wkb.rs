//! Pieces as polygons in Well-Known Binary, for map programs and databases.

use crate::{calls, Refusal, Voronoi, VoronoiCell};

/// The polygons of all pieces, one after the other, as Well-Known Binary (OGC 06-103r4, 8.2), little-endian.
#[derive(Clone, Debug, PartialEq, Eq)]
pub struct Polygons {
    bytes: Vec<u8>,
    starts: Vec<u64>,
}

impl Polygons {
    /// How many there are: one for each gauge.
    pub fn len(&self) -> usize {
        self.starts.len() - 1
    }
    /// Whether there is none; a build has three gauges or more.
    pub fn is_empty(&self) -> bool {
        self.len() == 0
    }
    /// That of a gauge. Panics where there is no such gauge, as an index does.
    pub fn get(&self, site: usize) -> &[u8] {
        &self.bytes[self.starts[site] as usize..self.starts[site + 1] as usize]
    }
    /// Those of all gauges, in their order.
    pub fn iter(&self) -> impl ExactSizeIterator<Item = &[u8]> + DoubleEndedIterator + Clone {
        self.starts.windows(2).map(move |cut| &self.bytes[cut[0] as usize..cut[1] as usize])
    }
    /// The bytes of all, with nothing between them.
    pub fn bytes(&self) -> &[u8] {
        &self.bytes
    }
    /// Where each begins in [Polygons::bytes], and one more: where the last ends.
    pub fn starts(&self) -> &[u64] {
        &self.starts
    }
}

/// What a polygon of so many corners takes in bytes.
fn room(corners: usize) -> usize {
    if corners < 3 {
        9
    } else {
        29 + 16 * corners
    }
}

impl Voronoi {
    /// The polygons of all pieces at once, with one check of the lists: a pass over the corners. That of an empty piece has no ring.
    ///
    /// ```
    /// use yelmuzard::*;
    ///
    /// # fn main() -> Result<(), Refusal> {
    /// # let sites = vec![Point { x: 0.0, y: 0.0 }, Point { x: 1.0, y: 0.0 }, Point { x: 0.0, y: 1.0 }];
    /// # let mesh = Triangulation { triangles: vec![0, 2, 1], halfedges: vec![EMPTY; 3], hull: vec![0, 2, 1] };
    /// let voronoi = Voronoi::new(sites, BoundingBox::new_centered_square(4.0), mesh)?;
    /// for (gauge, polygon) in voronoi.to_wkb()?.iter().enumerate() {
    ///     println!("{gauge}: {} bytes", polygon.len());
    /// }
    /// # Ok(())
    /// # }
    /// ```
    pub fn to_wkb(&self) -> Result<Polygons, Refusal> {
        let long = self.iter_cells().map(|cell| room(cell.triangles().len())).sum();
        let (mut bytes, mut starts) = (vec![0; long], vec![0; self.sites().len() + 1]);
        calls::all_wkb(self.vertices(), self.lent_cells(), &mut starts, &mut bytes)?;
        Ok(Polygons { bytes, starts })
    }
}

impl VoronoiCell<'_> {
    /// Its polygon; each call looks at the offsets of all pieces, so that [Voronoi::to_wkb] is for more than a few.
    pub fn to_wkb(&self) -> Result<Vec<u8>, Refusal> {
        let mut bytes = vec![0; room(self.triangles().len())];
        let voronoi = self.voronoi();
        calls::cell_wkb(voronoi.vertices(), voronoi.lent_cells(), self.site() as u32, &mut bytes)?;
        Ok(bytes)
    }
}
