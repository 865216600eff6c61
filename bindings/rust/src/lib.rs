//! The piece of a box that lies nearest to each gauge, built by a proved library, libvoronoi.a. Names and shapes are those of the crate
//! voronoice 0.2.0, so that a program moves over by changing a `use`, a `.build()` and a line for each path; what differs is said at each
//! item, and `docs/use/RUST.md` of the repository has it on a page.
//!
//! ```
//! use yelmuzard::*;
//!
//! # fn main() -> Result<(), Refusal> {
//! let sites = vec![Point { x: 0.0, y: 0.0 }, Point { x: 1.0, y: 0.0 }, Point { x: 0.0, y: 1.0 }];
//! let voronoi = VoronoiBuilder::default()
//!     .set_sites(sites)
//!     .set_bounding_box(BoundingBox::new_centered_square(4.0))
//!     // the mesh of these gauges, as delaunator gives it
//!     .build(|_| Triangulation { triangles: vec![0, 2, 1], halfedges: vec![EMPTY; 3], hull: vec![0, 2, 1] })?;
//! for cell in voronoi.iter_cells() {
//!     println!("{}: {:?}", cell.site(), cell.iter_vertices().collect::<Vec<&Point>>());
//! }
//! let areas = voronoi.areas()?;
//! assert!(areas.iter().all(|a| *a > 0.0));
//! # Ok(())
//! # }
//! ```
//!
//! No algorithm lives here: the crate lends slices to the library and reads them. Whatever cannot be built is an `Err` with a [Refusal], a
//! number with words and a place; nothing panics but an index that is out of range. A [Voronoi] holds lists only, so it can be sent to and shared by
//! threads; the library keeps no state.
#![deny(missing_docs, unsafe_code, unsafe_op_in_unsafe_fn, clippy::undocumented_unsafe_blocks)]

mod areas;
mod audit;
mod bounding_box;
mod builder;
#[allow(unsafe_code)]
#[rustfmt::skip]
mod calls;
mod cell;
mod certify;
mod ends;
mod mesh;
mod neighbors;
mod refusal;
mod sys;
mod voronoi;
mod wkb;

pub use audit::{Audit, Fault, AUDIT_BITS};
pub use bounding_box::BoundingBox;
pub use builder::VoronoiBuilder;
pub use cell::VoronoiCell;
pub use certify::CERTIFY_BITS;
pub use mesh::{centroid, Point, Triangulation, EMPTY};
pub use refusal::{Place, Refusal};
pub use voronoi::Voronoi;
pub use wkb::Polygons;
