//! The neighbours of all gauges: one check of the mesh for all of them.

use crate::calls::{self, Cells, Mesh};
use crate::Refusal;

/// A list of sites for each site, one after the other.
#[derive(Clone, Debug)]
pub(crate) struct Neighbors {
    starts: Vec<u32>,
    sites: Vec<u32>,
}

impl Neighbors {
    /// In the triangles alone where no cells are lent, both lists empty; else as the cells leave them.
    pub(crate) fn of(mesh: Mesh<'_>, cells: Cells<'_>) -> Result<Self, Refusal> {
        let n = mesh.sites.len();
        // each half-edge stands once in one list, and each hull site has a last neighbour more
        let (mut work, mut starts, mut sites) = (vec![0; n], vec![0; n + 1], vec![0; mesh.triangles.len() + mesh.hull.len()]);
        calls::all_neighbours(mesh, cells, &mut work, &mut starts, &mut sites)?;
        sites.truncate(starts[n] as usize);
        Ok(Self { starts, sites })
    }
    /// The lists as they are lent.
    pub(crate) fn lent(&self) -> Cells<'_> {
        Cells { offsets: &self.starts, indexes: &self.sites }
    }
    /// Those of a site.
    pub(crate) fn list(&self, site: usize) -> &[u32] {
        &self.sites[self.starts[site] as usize..self.starts[site + 1] as usize]
    }
}
