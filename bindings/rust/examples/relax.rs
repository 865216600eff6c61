//! One step of a Lloyd relaxation, which voronoice's `set_lloyd_relaxation_iterations` makes: each gauge moves to the mean of its piece's
//! corners. For more steps triangulate where the gauges have moved to, build, and step again.

use yelmuzard::*;

/// Where the gauges move to; one whose piece is empty stays. (In voronoice it becomes NaN, and is dropped by the next build.)
fn relaxed(voronoi: &Voronoi) -> Vec<Point> {
    voronoi.iter_cells().map(|cell| centroid(&cell.iter_vertices().copied().collect::<Vec<_>>()).unwrap_or(*cell.site_position())).collect()
}

fn main() -> Result<(), Refusal> {
    let sites = [(-0.5, -0.5), (-0.5, 0.5), (0.5, 0.5), (0.5, -0.25)].map(|(x, y)| Point { x, y }).to_vec();
    let mesh = |_: &[Point]| Triangulation {
        triangles: vec![0, 1, 2, 0, 2, 3],
        halfedges: vec![EMPTY, EMPTY, 3, 2, EMPTY, EMPTY],
        hull: vec![0, 1, 2, 3],
    };
    let voronoi = VoronoiBuilder::default().set_sites(sites).build(mesh)?;
    for (cell, moved) in voronoi.iter_cells().zip(relaxed(&voronoi)) {
        println!("{} {:?} to {:?}", cell.site(), cell.site_position(), moved);
    }
    Ok(())
}
