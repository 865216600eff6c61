//! Which gauge a path ends at, for many points at once.

use crate::{calls, Point, Refusal, Voronoi};

impl Voronoi {
    /// For each point the last gauge on the path to it, for all with one check of the mesh: the first path begins at the gauge `from`, each
    /// next where the one before it ended. On a Delaunay mesh that is a gauge nearest to the point, so the piece that the point lies in; the
    /// library promises the path's end and no more.
    /// Refused: 4 where there is no gauge `from`, 5 where a point's coordinate is no number or above 2^100.
    ///
    /// ```
    /// use yelmuzard::*;
    ///
    /// # fn main() -> Result<(), Refusal> {
    /// # let sites = vec![Point { x: 0.0, y: 0.0 }, Point { x: 1.0, y: 0.0 }, Point { x: 0.0, y: 1.0 }];
    /// # let mesh = Triangulation { triangles: vec![0, 2, 1], halfedges: vec![EMPTY; 3], hull: vec![0, 2, 1] };
    /// let voronoi = Voronoi::new(sites, BoundingBox::new_centered_square(4.0), mesh)?;
    /// let radar = [Point { x: -1.0, y: -1.0 }, Point { x: 1.5, y: 0.5 }];
    /// assert_eq!(voronoi.ends(0, &radar)?, [0, 1]);
    /// # Ok(())
    /// # }
    /// ```
    pub fn ends(&self, from: usize, points: &[Point]) -> Result<Vec<usize>, Refusal> {
        let (mut work, mut ends) = (vec![0; self.sites().len()], vec![0; points.len()]);
        calls::ends(self.mesh(), u32::try_from(from).unwrap_or(u32::MAX), points, &mut work, &mut ends)?;
        Ok(ends.into_iter().map(|site| site as usize).collect())
    }
}
