//! Areas, exact and rounded once.

use crate::calls::{self, Cells};
use crate::{Point, Refusal, Voronoi};

impl Voronoi {
    /// The area of each piece, exact and rounded once, so that its sign is the truth: below 0 where a piece turns the wrong way.
    /// The areas of sound pieces add up to the box's but for rounding.
    ///
    /// ```
    /// use yelmuzard::*;
    ///
    /// # fn main() -> Result<(), Refusal> {
    /// # let sites = vec![Point { x: 0.0, y: 0.0 }, Point { x: 1.0, y: 0.0 }, Point { x: 0.0, y: 1.0 }];
    /// # let mesh = Triangulation { triangles: vec![0, 2, 1], halfedges: vec![EMPTY; 3], hull: vec![0, 2, 1] };
    /// let voronoi = Voronoi::cut(sites, BoundingBox::new_centered_square(4.0), mesh)?;
    /// assert_eq!(voronoi.areas()?, [6.25, 4.875, 4.875]);
    /// # Ok(())
    /// # }
    /// ```
    pub fn areas(&self) -> Result<Vec<f64>, Refusal> {
        areas(self.vertices(), self.lent_cells())
    }
    /// The triangles that do not turn counter-clockwise with y downward, exactly; of a sound mesh none. The pieces of a mesh that is wound
    /// the other way are wrong, and nothing else tells.
    pub fn turned_triangles(&self) -> Result<Vec<usize>, Refusal> {
        let mesh = self.mesh();
        let offsets: Vec<u32> = (0..=mesh.triangles.len() as u32).step_by(3).collect();
        let areas = areas(mesh.sites, Cells { offsets: &offsets, indexes: mesh.triangles })?;
        Ok((0..areas.len()).filter(|&t| areas[t] <= 0.0).collect())
    }
}

fn areas(vertices: &[Point], cells: Cells<'_>) -> Result<Vec<f64>, Refusal> {
    let mut areas = vec![0.0; cells.offsets.len() - 1];
    calls::areas(vertices, cells, &mut areas)?;
    Ok(areas)
}
