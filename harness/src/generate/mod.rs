//! Meshes, boxes, pieces and questions to ask both sides.

pub mod areas;
pub mod damage;
pub mod delaunay;
pub mod edits;
pub mod floats;
pub mod meshes;
pub mod pieces;
pub mod rng;
pub mod sheets;
pub mod topology;
