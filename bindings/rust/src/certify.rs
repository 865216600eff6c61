//! The certificate: whether the pieces are the true ones, by theorem.

use crate::{calls, sys, Fault, Refusal, Voronoi};

/// The tolerance that a certificate is usually asked with: 2^-32 of the box's reach, the largest magnitude of its edges.
pub const CERTIFY_BITS: u32 = sys::CERTIFY_BITS as u32;

impl Voronoi {
    /// Whether the pieces are the true ones: `None` is the certificate, else the first fault. It looks at the box, the gauges and the pieces alone, each piece
    /// held against all gauges, so that it tells what a wrong mesh has done, whoever made it.
    ///
    /// What `None` means is a theorem (`certified` in `docs/trust/PUBLIC.md` of the repository): every place of the box that is nearer to one gauge than to any other
    /// by more than 1.42 (2^-bits reach + 2^-49 m) lies in the piece of that gauge, once, and in no other. The reach is the largest magnitude of the box's
    /// edges, m the larger of it and of the distances along an axis from the box to a gauge: 2 mm with [CERTIFY_BITS], where coordinates in metres reach
    /// 5,890,000. Refused (1) above 52 bits.
    ///
    /// Pieces by cutting ([Voronoi::cut]) have no fault but `Nearer` and `Twin`, which a wrong mesh or list of gauges makes. A build may have the end of
    /// a side at two places that differ by a last bit, and then `Side` names it.
    ///
    /// ```
    /// use yelmuzard::*;
    ///
    /// # fn main() -> Result<(), Refusal> {
    /// # let sites = vec![Point { x: 0.0, y: 0.0 }, Point { x: 1.0, y: 0.0 }, Point { x: 0.0, y: 1.0 }];
    /// # let mesh = Triangulation { triangles: vec![0, 2, 1], halfedges: vec![EMPTY; 3], hull: vec![0, 2, 1] };
    /// let voronoi = Voronoi::cut(sites, BoundingBox::new_centered_square(4.0), mesh)?;
    /// assert_eq!(voronoi.certify(CERTIFY_BITS)?, None);
    /// # Ok(())
    /// # }
    /// ```
    pub fn certify(&self, bits: u32) -> Result<Option<Fault>, Refusal> {
        let cells = self.lent_cells();
        let mut work = vec![0; sys::certify_room(self.sites().len(), cells.indexes.len())];
        let (kind, named) = calls::certify(self.bounding_box(), self.sites(), self.vertices(), cells, bits, &mut work)?;
        let [site, vertex, other] = named.map(|number| number as usize);
        Ok(match kind {
            sys::CERTIFY_SOUND => None,
            sys::CERTIFY_OUTSIDE => Some(Fault::Outside { site, vertex }),
            sys::CERTIFY_SIDE => Some(Fault::Side { site, vertex }),
            sys::CERTIFY_BORDER => Some(Fault::Border),
            sys::CERTIFY_NEARER => Some(Fault::Nearer { site, vertex, other }),
            _ => Some(Fault::Twin { site, other }),
        })
    }
}
