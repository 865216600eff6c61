//! The area of each gauge's piece, and its neighbours: four gauges in a box of 2 by 2.

use yelmuzard::*;

fn main() -> Result<(), Refusal> {
    let sites = [(-0.5, -0.5), (-0.5, 0.5), (0.5, 0.5), (0.5, -0.5)].map(|(x, y)| Point { x, y }).to_vec();
    let bounding_box = BoundingBox::new_centered_square(2.0);
    let mesh = |_: &[Point]| Triangulation {
        triangles: vec![0, 1, 2, 0, 2, 3],
        halfedges: vec![EMPTY, EMPTY, 3, 2, EMPTY, EMPTY],
        hull: vec![0, 1, 2, 3],
    };
    let voronoi = VoronoiBuilder::default().set_sites(sites).set_bounding_box(bounding_box).build(mesh)?; // mesh: delaunator's three lists
    for (cell, area) in voronoi.iter_cells().zip(voronoi.areas()?) {
        println!("{} {area} {:?}", cell.site(), cell.iter_neighbors().collect::<Vec<usize>>());
    }
    Ok(())
}
