//! A plan that goes out: pieces by cutting, which add up to the box, and the certificate that they are the true ones.

use yelmuzard::*;

fn main() -> Result<(), Box<dyn std::error::Error>> {
    let sites = [(-0.5, -0.5), (-0.5, 0.5), (0.5, 0.5), (0.5, -0.5)].map(|(x, y)| Point { x, y }).to_vec();
    let mesh = |_: &[Point]| Triangulation {
        triangles: vec![0, 1, 2, 0, 2, 3],
        halfedges: vec![EMPTY, EMPTY, 3, 2, EMPTY, EMPTY],
        hull: vec![0, 1, 2, 3],
    };
    let voronoi = VoronoiBuilder::default().set_sites(sites).cut(mesh)?;
    if let Some(fault) = voronoi.certify(CERTIFY_BITS)? {
        return Err(format!("not certified: {fault:?}").into());
    }
    println!("certified: {:?}", voronoi.areas()?);
    Ok(())
}
