//! A planner's program: for each set of gauges in a file its pieces, their areas and neighbours, and the way to a point.

use std::io::Write;
use voronoice::*;

fn area(cell: &VoronoiCell) -> f64 {
    let p: Vec<&Point> = cell.iter_vertices().collect();
    (0..p.len()).map(|i| (p[i], p[(i + 1) % p.len()])).map(|(a, b)| a.y * b.x - a.x * b.y).sum::<f64>() / 2.0
}

fn plan(bounding_box: BoundingBox, sites: Vec<Point>, to: Point, out: &mut impl Write) -> std::io::Result<()> {
    let voronoi = VoronoiBuilder::default()
        .set_sites(sites)
        .set_bounding_box(bounding_box)
        .build()
        .unwrap();
    for cell in voronoi.iter_cells() {
        let (p, neighbors) = (cell.site_position(), cell.iter_neighbors().collect::<Vec<usize>>());
        writeln!(out, "{} {:?} {:?} {:?} {:?} {} {:?}", cell.site(), p.x, p.y, cell.triangles(), area(&cell), cell.is_on_hull(), neighbors)?;
    }
    for v in voronoi.vertices().iter() {
        writeln!(out, "{:?} {:?}", v.x, v.y)?;
    }
    writeln!(out, "{} {:?} {:?}", voronoi.sites().len(), voronoi.triangulation().hull, voronoi.cells())?;
    writeln!(out, "{:?}", voronoi.cell(0).iter_path(to).collect::<Vec<usize>>())
}

/// A line of four numbers is a box, its center and size, and begins a set; a line of two is a gauge.
fn main() -> std::io::Result<()> {
    let text = std::fs::read_to_string(std::env::args().nth(1).expect("the file of gauges"))?;
    let mut lines = text.lines().map(|l| l.split(',').map(|w| w.parse().expect(l)).collect::<Vec<f64>>()).peekable();
    let mut out = std::io::BufWriter::new(std::io::stdout().lock());
    while let Some(b) = lines.next() {
        let sites = std::iter::from_fn(|| lines.next_if(|l| l.len() == 2)).map(|p| Point { x: p[0], y: p[1] }).collect();
        let to = Point { x: b[0] + 0.4 * b[2], y: b[1] + 0.375 * b[3] };
        plan(BoundingBox::new(Point { x: b[0], y: b[1] }, b[2], b[3]), sites, to, &mut out)?;
    }
    Ok(())
}
