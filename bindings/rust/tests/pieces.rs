//! What the names of voronoice give here, on the meshes of the repository.

mod common;
use common::*;
use yelmuzard::*;

fn thirty() -> Voronoi {
    let (bounding_box, sites, mesh) = read("examples/thirty.txt");
    VoronoiBuilder::default().set_bounding_box(bounding_box).set_sites(sites).build(|_| mesh).unwrap()
}

fn list(sites: impl Iterator<Item = usize>) -> Vec<usize> {
    sites.collect()
}

#[test]
fn the_listing_of_the_readme() {
    let v = thirty();
    assert_eq!((v.sites().len(), v.triangulation().triangles.len() / 3, v.vertices().len()), (30, 50, 82));
    assert_eq!(v.cell(0).triangles(), [2, 62, 50, 63, 1]);
    assert_eq!((v.corner_owners(), v.lost_corners()), ([0, 27, 29, 1], 0));
    // every line of it
    for (cell, line) in v.iter_cells().zip(text("tests/programs/cells/thirty.out").lines().skip(1)) {
        let entries: Vec<String> = cell.triangles().iter().map(u32::to_string).collect();
        assert_eq!(format!("cell {}: {}", cell.site(), entries.join(" ")), line);
    }
}

#[test]
fn square() {
    let v = built("examples/square.txt").unwrap();
    let cells = [&[1, 10, 2, 11, 0][..], &[0, 11, 3, 12], &[0, 12, 4, 13, 1], &[1, 13, 5, 10]];
    assert_eq!(v.cells(), cells.map(|c| c.to_vec()));
    assert_eq!(v.areas().unwrap(), [1.0; 4]);
    assert_eq!(list(v.cell(0).iter_topological_neighbors()), [3, 2, 1]);
    assert_eq!(list(v.cell(3).iter_path(Point { x: -1.0, y: 1.0 }).unwrap()), [3, 2, 1]);
    assert_eq!(v.cell(1).iter_vertices().next(), Some(&v.vertices()[0]));
    assert_eq!(
        format!("{:?}", v.cell(1)),
        "VoronoiCell { site: 1, site_position: Point { x: -0.5, y: 0.5 }, triangles: [0, 11, 3, 12], .. }"
    );
    assert_eq!((v.iter_cells().len(), v.iter_cells().next_back().map(|c| c.site())), (4, Some(3)));
}

#[test]
fn areas_fill_the_sheet_and_paths_end_at_the_nearest() {
    let v = thirty();
    assert!((v.areas().unwrap().iter().sum::<f64>() - 8000.0).abs() < 1e-9);
    assert!(v.turned_triangles().unwrap().is_empty());
    assert_eq!(v.audit(AUDIT_BITS), Ok(Audit { missing: 0.0, fault: None }));
    assert_eq!(v.audit_near(AUDIT_BITS), Ok(Audit { missing: 0.0, fault: None }));
    for to in [Point { x: 3.0, y: 77.0 }, Point { x: 50.0, y: 40.0 }, Point { x: 99.0, y: 1.0 }] {
        let far = |s: &usize| (v.sites()[*s].x - to.x).powi(2) + (v.sites()[*s].y - to.y).powi(2);
        let nearest = (0..30).min_by(|a, b| far(a).total_cmp(&far(b)));
        for cell in v.iter_cells() {
            let path = cell.iter_path(to).unwrap();
            assert_eq!((path.clone().next(), path.last()), (Some(cell.site()), nearest));
        }
    }
}

#[test]
fn neighbours() {
    let v = thirty();
    for cell in v.iter_cells() {
        for other in cell.iter_neighbors() {
            assert!(v.cell(other).iter_neighbors().any(|s| s == cell.site()));
            assert!(cell.iter_topological_neighbors().any(|s| s == other));
        }
    }
    let v = built("harness/meshes/no_clipped_neighbours.txt").unwrap();
    assert_eq!(v.iter_cells().map(|c| (c.iter_neighbors().len(), c.iter_topological_neighbors().len())).collect::<Vec<_>>(), [(0, 2); 3]);
    // a box within one piece: all pieces are empty, and no list of corners is still one that is lent
    let v = built("harness/meshes/covered_box.txt").unwrap();
    assert_eq!(v.cells(), vec![vec![]; 4] as Vec<Vec<usize>>);
    assert_eq!((list(v.cell(0).iter_topological_neighbors()), list(v.cell(0).iter_neighbors())), (vec![3, 2, 1], vec![2]));
}

/// On a mesh with doubled edges a site may have more neighbours than there are sites; the list is whole.
#[test]
fn more_neighbours_than_sites() {
    // a disc of one triangle, and beside it a closed part of 14 triangles on the sites 3, 4, 5: seven one way round, seven the other
    let mut mesh = Triangulation { triangles: vec![0, 1, 2], halfedges: vec![EMPTY; 3], hull: vec![0, 1, 2] };
    let (one, other) = (|i: usize| 3 + 6 * (i % 7), |i: usize| 6 + 6 * (i % 7));
    for i in 0..7 {
        mesh.triangles.extend([3, 4, 5, 3, 5, 4]);
        mesh.halfedges.extend([other(i) + 2, other(i + 1) + 1, other(i + 2)]);
        mesh.halfedges.extend([one(i + 5) + 2, one(i + 6) + 1, one(i)]);
    }
    let at = [(0.0, 0.0), (0.0, 1.0), (1.0, 0.0), (5.0, 5.0), (4.0, 4.0), (6.0, 4.0)];
    let v = Voronoi::new(at.map(|(x, y)| Point { x, y }).to_vec(), BoundingBox::default(), mesh).unwrap();
    for site in 3..6 {
        let neighbours = list(v.cell(site).iter_topological_neighbors());
        assert_eq!((neighbours.len(), v.sites().len()), (14, 6));
        assert_eq!(list(v.cell(site).iter_neighbors()), neighbours);
    }
}

#[test]
fn on_the_hull() {
    let v = thirty();
    assert!(v.cell(0).is_on_hull() && !v.cell(15).is_on_hull());
    // in no triangle: on no border, no neighbours, a path of itself
    let v = built("harness/meshes/unused_site.txt").unwrap();
    let cell = v.cell(4);
    assert!(!cell.is_on_hull() && cell.triangles().is_empty());
    assert_eq!((cell.iter_neighbors().len(), list(cell.iter_path(Point::default()).unwrap())), (0, vec![4]));
}

/// voronoice's quirk: vertex T, the box's first corner, does not make a piece one on the hull by itself. Here site 0 stands amid others, and
/// its cell is that vertex, twice.
#[test]
fn the_first_corner_does_not_count() {
    let sites = [(-0.25, -0.25), (-0.25, 0.0), (0.5, 0.25), (0.5, 0.0), (-0.5, -0.5)].map(|(x, y)| Point { x, y }).to_vec();
    let mesh = Triangulation {
        triangles: vec![4, 1, 0, 0, 1, 3, 0, 3, 4, 1, 2, 3],
        halfedges: vec![EMPTY, 3, 8, 1, 11, 6, 5, EMPTY, 2, EMPTY, EMPTY, 4],
        hull: vec![4, 1, 2, 3],
    };
    let v = Voronoi::new(sites, BoundingBox::new(Point { x: 0.5, y: 0.0 }, 0.5, 1.0), mesh).unwrap();
    assert_eq!((v.cell(0).triangles(), v.cell(0).is_on_hull()), (&[4, 4][..], false));
}

#[test]
fn sites_outside_are_dropped_or_kept() {
    let (bounding_box, mut sites, mesh) = read("examples/square.txt");
    sites.insert(2, Point { x: 3.0, y: 3.0 });
    let given = VoronoiBuilder::default().set_sites(sites.clone()).set_bounding_box(bounding_box);
    let dropped = given.clone().build(|left| {
        assert_eq!(left.len(), 4);
        mesh.clone()
    });
    assert_eq!(dropped.unwrap().cells(), built("examples/square.txt").unwrap().cells());
    // the same mesh over all five: site 2 in no triangle, 2 and 3 become 3 and 4
    let up = |list: &[usize]| list.iter().map(|&s| if s < 2 { s } else { s + 1 }).collect::<Vec<_>>();
    let over_five = Triangulation { triangles: up(&mesh.triangles), hull: up(&mesh.hull), halfedges: mesh.halfedges };
    let kept = given.keep_sites_outside().build(|all| {
        assert_eq!(all.len(), 5);
        over_five
    });
    assert_eq!(kept.unwrap().sites(), sites);
}

#[test]
fn the_box() {
    let b = BoundingBox::new(Point { x: 0.45, y: 0.5 }, 0.3, 1.0);
    assert_eq!((b.left().unwrap(), b.right().unwrap(), b.width().unwrap()), (0.45 - 0.15, 0.45 + 0.15, (0.45 + 0.15) - (0.45 - 0.15)));
    assert_eq!((b.top().unwrap(), b.bottom().unwrap(), b.height().unwrap()), (0.0, 1.0, 1.0));
    let c = b.corners().unwrap();
    assert_eq!((c[0].y, c[1].y, c[2].y, c[3].y, c[0].x, c[2].x), (0.0, 1.0, 1.0, 0.0, b.left().unwrap(), b.right().unwrap()));
    assert!(b.is_inside(&c[0]).unwrap() && !b.is_exclusively_inside(&c[0]).unwrap());
    assert!(b.is_exclusively_inside(b.center()).unwrap() && !b.is_inside(&Point { x: 0.0, y: 0.5 }).unwrap());
    assert_eq!(BoundingBox::default(), BoundingBox::new_centered(2.0, 2.0));
}

#[test]
fn where_paths_end() {
    let v = thirty();
    let points: Vec<Point> = (0..400).map(|i| Point { x: (i % 20) as f64 * 5.3, y: (i / 20) as f64 * 4.1 }).collect();
    let mut from = 7;
    for (end, &to) in v.ends(7, &points).unwrap().into_iter().zip(&points) {
        assert_eq!(v.cell(from).iter_path(to).unwrap().last(), Some(end));
        from = end;
    }
    assert_eq!(v.ends(7, &[]), Ok(vec![]));
    assert_eq!((v.ends(30, &points), v.ends(EMPTY, &points)), (Err(Refusal::Site), Err(Refusal::Site)));
    assert_eq!(v.ends(0, &[points[0], Point { x: f64::INFINITY, y: 0.0 }]), Err(Refusal::Destination));
}

#[test]
fn wound_the_other_way() {
    let (bounding_box, sites, mesh) = read("examples/thirty.txt");
    // triangle a b c becomes a c b: its half-edges 0 1 2 become 2 1 0
    let place = |h: usize| if h == EMPTY { EMPTY } else { h / 3 * 3 + 2 - h % 3 };
    let mut turned = Triangulation { hull: mesh.hull.iter().rev().copied().collect(), ..mesh.clone() };
    for h in 0..mesh.triangles.len() {
        turned.triangles[place(h)] = mesh.triangles[if h % 3 == 2 { h - 2 } else { h + 1 }];
        turned.halfedges[place(h)] = place(mesh.halfedges[h]);
    }
    let v = Voronoi::new(sites, bounding_box, turned).unwrap();
    assert_eq!(v.turned_triangles().unwrap(), (0..50).collect::<Vec<_>>());
    assert_eq!(v.areas().unwrap().iter().filter(|a| **a < 0.0).count(), 26);
    assert!(matches!(v.audit(AUDIT_BITS).unwrap().fault, Some(Fault::Ring { .. })));
}

#[test]
fn an_audit() {
    assert_eq!(built("examples/square.txt").unwrap().audit(52), Ok(Audit { missing: 0.0, fault: None }));
    assert_eq!(built("examples/square.txt").unwrap().audit(53), Err(Refusal::Count));
    // no piece has a corner, and the whole box is missing
    assert_eq!(built("harness/meshes/covered_box.txt").unwrap().audit(AUDIT_BITS), Ok(Audit { missing: 1.0, fault: Some(Fault::Total) }));
    // a quarter of the box and more is gone, with one corner lost
    let short = built("harness/meshes/lost_corners.txt").unwrap().audit(AUDIT_BITS).unwrap();
    assert!(short.missing > 0.25 && short.fault.is_some());
    // held against the neighbours alone the two agree here
    assert_eq!(built("harness/meshes/lost_corners.txt").unwrap().audit_near(AUDIT_BITS).unwrap(), short);
    assert_eq!(built("examples/square.txt").unwrap().audit_near(53), Err(Refusal::Count));
}

/// By cutting the pieces are certified; a flipped edge, exchanged gauges, a gauge twice and a build's faults are named.
#[test]
fn a_certificate() {
    for name in ["examples/thirty.txt", "examples/square.txt", "harness/meshes/lost_corners.txt", "harness/meshes/covered_box.txt"] {
        let (bounding_box, sites, mesh) = read(name);
        let v = Voronoi::cut(sites.clone(), bounding_box.clone(), mesh.clone()).unwrap();
        assert_eq!(v.certify(CERTIFY_BITS), Ok(None), "{name}");
        let [left, top, right, bottom] =
            [bounding_box.left(), bounding_box.top(), bounding_box.right(), bounding_box.bottom()].map(Result::unwrap);
        let v = Voronoi::cut(sites, BoundingBox::from_edges(left, top, right, bottom), mesh).unwrap();
        assert_eq!((v.certify(CERTIFY_BITS), v.certify(53)), (Ok(None), Err(Refusal::Count)), "{name}");
    }
    // the accident: a mesh whose pieces add up and are the wrong ones
    let (bounding_box, sites, mesh) = read("examples/accident.txt");
    let v = Voronoi::cut(sites, bounding_box, mesh).unwrap();
    assert!(matches!(v.certify(CERTIFY_BITS).unwrap(), Some(Fault::Nearer { .. })));
    // no piece has a corner; a quarter of the box is gone
    assert_eq!(built("harness/meshes/covered_box.txt").unwrap().certify(CERTIFY_BITS), Ok(Some(Fault::Border)));
    assert!(built("harness/meshes/lost_corners.txt").unwrap().certify(CERTIFY_BITS).unwrap().is_some());
    // a gauge beside the square that stands where another does, in no triangle
    let (bounding_box, mut sites, mesh) = read("examples/square.txt");
    sites.push(sites[1]);
    let v = Voronoi::cut(sites, bounding_box, mesh).unwrap();
    assert_eq!(v.certify(CERTIFY_BITS), Ok(Some(Fault::Twin { site: 4, other: 1 })));
}

/// A box by its edges has them bit for bit, and so have the pieces.
#[test]
fn by_its_edges() {
    let (_, sites, mesh) = read("examples/thirty.txt");
    let sheet = BoundingBox::from_edges(0.0, 0.0, 100.0, 80.0);
    assert_eq!(sheet.center(), &Point { x: 50.0, y: 40.0 });
    assert_eq!((sheet.left(), sheet.top(), sheet.right(), sheet.bottom()), (Ok(0.0), Ok(0.0), Ok(100.0), Ok(80.0)));
    assert_eq!((sheet.width(), sheet.height()), (Ok(100.0), Ok(80.0)));
    assert_eq!(sheet.corners().unwrap()[2], Point { x: 100.0, y: 80.0 });
    assert!(sheet.is_inside(&Point::default()).unwrap() && !sheet.is_exclusively_inside(&Point::default()).unwrap());
    let (v, w) = (Voronoi::new(sites, sheet, mesh).unwrap(), thirty());
    assert_eq!((v.vertices(), v.cells(), v.audit(AUDIT_BITS)), (w.vertices(), w.cells(), w.audit(AUDIT_BITS)));
    for (left, top, right, bottom) in
        [(1.0, 0.0, 1.0, 1.0), (0.0, 2.0, 1.0, 1.0), (f64::NAN, 0.0, 1.0, 1.0), (0.0, 0.0, f64::INFINITY, 1.0)]
    {
        assert_eq!(BoundingBox::from_edges(left, top, right, bottom).left(), Err(Refusal::Box));
    }
}

/// Two sheets that share an edge on a tenth of a metre meet there: 100,000 pairs, the corners of the box and of the pieces, built and cut in turn.
#[test]
fn neighbouring_sheets_meet() {
    let (_, sites, mesh) = read("examples/square.txt");
    let (mut state, mut apart) = (1u64, 0);
    for pair in 0..100_000u32 {
        let mut tenths = 0;
        let [left, middle, right] = [0; 3].map(|_| {
            state = state.wrapping_mul(6364136223846793005).wrapping_add(1442695040888963407);
            tenths += 1 + (state >> 33) % 100_000;
            tenths as f64 / 10.0
        });
        let (west, east) = (BoundingBox::from_edges(left, 0.0, middle, 1.0), BoundingBox::from_edges(middle, 0.0, right, 1.0));
        assert_eq!(west.right().unwrap().to_bits(), east.left().unwrap().to_bits());
        apart += u32::from(west.right() != BoundingBox::new(*east.center(), right - middle, 1.0).left());
        let of = |b| if pair % 2 == 0 { Voronoi::new } else { Voronoi::cut }(sites.clone(), b, mesh.clone()).unwrap();
        let (west, east) = (of(west), of(east));
        // the box's corners stand after the two triangles
        assert_eq!((west.vertices()[4].x, west.vertices()[5].x), (east.vertices()[2].x, east.vertices()[3].x));
    }
    assert!(apart > 0, "by center and size all sheets meet too: this test shows nothing");
}

/// One by one and all at once the polygons are the same bytes.
#[test]
fn polygons() {
    for name in ["examples/thirty.txt", "examples/square.txt", "harness/meshes/covered_box.txt"] {
        let v = built(name).unwrap();
        let all = v.to_wkb().unwrap();
        assert_eq!((all.len(), all.is_empty(), all.iter().len()), (v.sites().len(), false, v.sites().len()));
        assert_eq!((all.starts()[0], *all.starts().last().unwrap()), (0, all.bytes().len() as u64));
        for (cell, image) in v.iter_cells().zip(all.iter()) {
            assert_eq!((cell.to_wkb().unwrap().as_slice(), all.get(cell.site())), (image, image));
            // byte order, type, rings; then the first corner's x
            assert_eq!(image[..5], [1, 3, 0, 0, 0]);
            assert_eq!(image[5], u8::from(cell.triangles().len() >= 3));
            if let (true, Some(corner)) = (image.len() > 9, cell.iter_vertices().next()) {
                assert_eq!(image[13..21], corner.x.to_le_bytes());
            }
        }
    }
}

/// Which gauges were kept, and the same built again from what was built.
#[test]
fn kept_and_built_again() {
    let (bounding_box, mut sites, mesh) = read("examples/square.txt");
    sites.insert(0, Point { x: 3.0, y: 3.0 });
    let given = VoronoiBuilder::default().set_sites(sites).set_bounding_box(bounding_box);
    let v = given.clone().build(|_| mesh.clone()).unwrap();
    assert_eq!(v.kept(), [1, 2, 3, 4]);
    let again = VoronoiBuilder::from(&v).build(|left| {
        assert_eq!(left, v.sites());
        mesh.clone()
    });
    assert_eq!(again.unwrap().cells(), v.cells());
    assert_eq!(VoronoiBuilder::from(v.clone()).build(|_| mesh.clone()).unwrap().vertices(), v.vertices());
    assert_eq!(built("examples/square.txt").unwrap().kept(), [0, 1, 2, 3]);
    let up = |list: &[usize]| list.iter().map(|&s| s + 1).collect::<Vec<_>>();
    let over_five = Triangulation { triangles: up(&mesh.triangles), hull: up(&mesh.hull), halfedges: mesh.halfedges };
    let kept = given.keep_sites_outside().build(|_| over_five.clone()).unwrap();
    assert_eq!(kept.kept(), [0, 1, 2, 3, 4]);
    // and they are kept when it is built again
    let again = VoronoiBuilder::from(kept).build(|all| {
        assert_eq!(all.len(), 5);
        over_five
    });
    assert_eq!(again.unwrap().kept().len(), 5);
}

#[cfg(voronoi_cut)]
#[test]
fn cut_pieces_add_up() {
    for name in ["examples/thirty.txt", "examples/square.txt", "harness/meshes/lost_corners.txt"] {
        let (bounding_box, sites, mesh) = read(name);
        let whole = bounding_box.width().unwrap() * bounding_box.height().unwrap();
        let v = VoronoiBuilder::default().set_sites(sites.clone()).set_bounding_box(bounding_box).cut(|_| mesh).unwrap();
        assert_eq!((v.lost_corners(), v.kept().len()), (0, sites.len()));
        assert!((v.areas().unwrap().iter().sum::<f64>() / whole - 1.0).abs() < 1e-12);
    }
}

#[test]
fn the_mean_of_points() {
    let corners = BoundingBox::default().corners().unwrap();
    assert_eq!(centroid(&corners), Ok(Point::default()));
    assert_eq!(centroid(&[]), Err(Refusal::Count));
}

#[test]
fn sent_and_shared() {
    fn held<T: Send + Sync + Clone + std::fmt::Debug>() {}
    held::<Voronoi>();
    held::<VoronoiCell<'static>>();
    held::<Refusal>();
    let v = thirty();
    let total = |v: &Voronoi| v.areas().unwrap().iter().sum::<f64>();
    std::thread::scope(|s| {
        let other = s.spawn(|| total(&v));
        assert_eq!(total(&v), other.join().unwrap());
    });
}
