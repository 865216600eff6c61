//! The audit: five tests of the pieces.

use crate::calls::{self, Cells};
use crate::{sys, Refusal, Voronoi};

/// The tolerance that an audit is usually asked with: 2^-20 of the box.
pub const AUDIT_BITS: u32 = sys::AUDIT_BITS as u32;

/// What an audit found.
#[derive(Clone, Copy, Debug, PartialEq)]
pub struct Audit {
    /// the share of the box that no piece covers; below 0 where pieces overlap
    pub missing: f64,
    /// the first fault; none where no test tells one
    pub fault: Option<Fault>,
}

/// A fault of the pieces, as an audit or a certificate tells it.
#[derive(Clone, Copy, Debug, PartialEq, Eq)]
#[non_exhaustive]
pub enum Fault {
    /// a piece does not run once round, the right way (the audit)
    Ring {
        /// the lowest such gauge
        site: usize,
    },
    /// a corner of a piece lies outside the box
    Outside {
        /// the lowest such gauge
        site: usize,
        /// its first such corner, a place in [Voronoi::vertices]
        vertex: usize,
    },
    /// a side of a piece is no other piece's: it comes more often than its way back (the certificate)
    Side {
        /// the lowest such gauge
        site: usize,
        /// the corner where its first such side starts
        vertex: usize,
    },
    /// the pieces do not go round the box exactly once (the certificate)
    Border,
    /// a corner of a piece lies nearer to another gauge
    Nearer {
        /// the lowest such gauge
        site: usize,
        /// its first such corner
        vertex: usize,
        /// the first gauge that is nearer to it
        other: usize,
    },
    /// the areas do not add up to the box's (the audit)
    Total,
    /// two gauges stand at one place
    Twin {
        /// the lowest that has such a one before it
        site: usize,
        /// the first before it
        other: usize,
    },
}

impl Voronoi {
    /// Five tests, to 2^-bits of the box: each piece runs once round, the right way, lies in the box and has no corner that is nearer to any
    /// other gauge, and all of them add up to the box; else the first fault. [AUDIT_BITS] is far from what rounding does, and from what a
    /// wrong mesh does. Refused (1) above 52. The certificate is [Voronoi::certify]: wrong pieces can be made that pass here.
    ///
    /// Its time grows with the corners times the gauges; [Voronoi::audit_near] is for many gauges, and leaves out what only a gauge further off would
    /// tell.
    ///
    /// ```
    /// use yelmuzard::*;
    ///
    /// # fn main() -> Result<(), Refusal> {
    /// # let sites = vec![Point { x: 0.0, y: 0.0 }, Point { x: 1.0, y: 0.0 }, Point { x: 0.0, y: 1.0 }];
    /// # let mesh = Triangulation { triangles: vec![0, 2, 1], halfedges: vec![EMPTY; 3], hull: vec![0, 2, 1] };
    /// let voronoi = Voronoi::new(sites, BoundingBox::new_centered_square(4.0), mesh)?;
    /// match voronoi.audit(AUDIT_BITS)?.fault {
    ///     None => println!("sound"),
    ///     Some(fault) => println!("{fault:?}"),
    /// }
    /// # Ok(())
    /// # }
    /// ```
    pub fn audit(&self, bits: u32) -> Result<Audit, Refusal> {
        self.audit_against(Cells { offsets: &[], indexes: &[] }, bits)
    }
    /// The same with each piece held against its neighbours in the triangles alone: on a wrong mesh a corner can be nearer to a gauge that is none of
    /// them, and this does not find it.
    pub fn audit_near(&self, bits: u32) -> Result<Audit, Refusal> {
        self.audit_against(self.joined().lent(), bits)
    }
    fn audit_against(&self, others: Cells<'_>, bits: u32) -> Result<Audit, Refusal> {
        let found = calls::audit(self.bounding_box(), self.sites(), self.vertices(), self.lent_cells(), others, bits)?;
        let [site, vertex, other] = found.named.map(|number| number as usize);
        let fault = match found.kind {
            sys::AUDIT_SOUND => None,
            sys::AUDIT_RING => Some(Fault::Ring { site }),
            sys::AUDIT_OUTSIDE => Some(Fault::Outside { site, vertex }),
            sys::AUDIT_NEARER => Some(Fault::Nearer { site, vertex, other }),
            sys::AUDIT_TOTAL => Some(Fault::Total),
            _ => Some(Fault::Twin { site, other }),
        };
        Ok(Audit { missing: found.missing, fault })
    }
}
