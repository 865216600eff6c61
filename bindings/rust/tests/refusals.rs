//! Every refusal reached from Rust, and its words held to the header's. Those that the crate's own names cannot reach, because it lends
//! enough and keeps its lists together, or has no such call, come from the C calls themselves.

mod common;
use common::*;
use std::collections::BTreeMap;
use yelmuzard::*;

#[rustfmt::skip]
extern "C" {
    fn voronoi_corners(cx: f64, cy: f64, width: f64, height: f64, out: *mut f64, length: usize) -> u32;
    fn voronoi_cell(offsets: *const u32, offsets_len: usize, indexes: *const u32, indexes_len: usize, site: u32, start: *mut u32,
        length: *mut u32) -> u32;
    fn voronoi_areas(vertices: *const f64, vertices_len: usize, offsets: *const u32, offsets_len: usize, indexes: *const u32,
        indexes_len: usize, areas: *mut f64, areas_len: usize) -> u32;
    fn voronoi_read_form(form: *const u8, form_len: usize, area: *mut f64, box_len: usize, sites: *mut f64, sites_len: usize,
        triangles: *mut u32, triangles_len: usize, halfedges: *mut u32, halfedges_len: usize, hull: *mut u32, hull_len: usize,
        clip: *mut u32, site_count: *mut u32, triangle_count: *mut u32, hull_count: *mut u32, at: *mut u64) -> u32;
    fn voronoi_mend(sites: *const f64, sites_len: usize, triangles: *const u32, triangles_len: usize, halfedges: *const u32,
        halfedges_len: usize, hull: *const u32, hull_len: usize, work: *mut u32, work_len: usize, pairs: *mut u32, pairs_len: usize,
        mended: *mut u32, mended_len: usize, changes: *mut u32, changes_len: usize, hull_length: *mut u32, pair_changes: *mut u32,
        hull_changes: *mut u32) -> u32;
    fn voronoi_read_multipoint(file: *const u8, file_len: usize, sites: *mut f64, sites_len: usize, count: *mut u32) -> u32;
    fn voronoi_grid_sites(grid: *const i32, grid_len: usize, sites: *mut f64, sites_len: usize) -> u32;
    fn voronoi_flip(site_count: u32, triangles: *mut u32, triangles_len: usize, halfedges: *mut u32, halfedges_len: usize,
        hull: *const u32, hull_len: usize, table: *mut u32, table_len: usize, work: *mut u32, work_len: usize, halfedge: u32) -> u32;
}

/// "square" with something changed.
fn square(change: impl FnOnce(&mut BoundingBox, &mut Vec<Point>, &mut Triangulation)) -> Refusal {
    let (mut bounding_box, mut sites, mut mesh) = read("examples/square.txt");
    change(&mut bounding_box, &mut sites, &mut mesh);
    Voronoi::new(sites, bounding_box, mesh).unwrap_err()
}

/// "square" mirrored, which is wound the wrong way, cut.
fn mirrored() -> Refusal {
    let (bounding_box, mut sites, mesh) = read("examples/square.txt");
    sites.iter_mut().for_each(|p| p.y = -p.y);
    Voronoi::cut(sites, bounding_box, mesh).unwrap_err()
}

fn refused(mesh: &str) -> Refusal {
    built(mesh).unwrap_err()
}

/// A C call's answer; where it is not said otherwise, every list is an array of its own, lent with its length.
fn raw(answer: u32) -> Refusal {
    Refusal::of_number(answer).unwrap()
}

fn ring(vertices: [f64; 6], entries: [u32; 3]) -> Refusal {
    let mut area = [0.0];
    raw(unsafe { voronoi_areas(vertices.as_ptr(), 6, [0, 3].as_ptr(), 2, entries.as_ptr(), 3, area.as_mut_ptr(), 1) })
}

fn form(bytes: &[u8]) -> Refusal {
    let (mut area, mut sites, mut triangles, mut halfedges, mut hull) = ([0.0; 4], [0.0; 192], [0; 576], [0; 576], [0; 96]);
    let ([mut clip, mut n, mut t, mut h], mut at) = ([0; 4], 0);
    raw(unsafe {
        voronoi_read_form(
            bytes.as_ptr(),
            bytes.len(),
            area.as_mut_ptr(),
            4,
            sites.as_mut_ptr(),
            192,
            triangles.as_mut_ptr(),
            576,
            halfedges.as_mut_ptr(),
            576,
            hull.as_mut_ptr(),
            96,
            &mut clip,
            &mut n,
            &mut t,
            &mut h,
            &mut at,
        )
    })
}

fn cell(offsets: &[u32], site: u32) -> Refusal {
    let [mut start, mut length] = [0; 2];
    raw(unsafe { voronoi_cell(offsets.as_ptr(), offsets.len(), [0].as_ptr(), 1, site, &mut start, &mut length) })
}

/// The triangles 0 1 2 and 0 1 3.
fn mended_twice() -> Refusal {
    let (sites, triangles, hull) = ([0.0, 0.0, 1.0, 0.0, 0.0, 1.0, 1.0, 1.0], [0, 1, 2, 0, 1, 3], [0, 1, 2]);
    let (mut work, mut pairs, mut mended, mut changes, [mut a, mut b, mut c]) = ([0; 4], [0; 6], [0; 4], [0; 30], [0; 3]);
    raw(unsafe {
        voronoi_mend(
            sites.as_ptr(),
            8,
            triangles.as_ptr(),
            6,
            [u32::MAX; 6].as_ptr(),
            6,
            hull.as_ptr(),
            3,
            work.as_mut_ptr(),
            4,
            pairs.as_mut_ptr(),
            6,
            mended.as_mut_ptr(),
            4,
            changes.as_mut_ptr(),
            30,
            &mut a,
            &mut b,
            &mut c,
        )
    })
}

/// Half-edge 0 of "square", which is unpaired.
fn flipped() -> Refusal {
    let none = u32::MAX;
    let (mut triangles, mut halfedges, mut table, mut work) = ([0, 1, 2, 0, 2, 3], [none, none, 3, 2, none, none], [5, 0, 1, 4], [0; 4]);
    raw(unsafe {
        voronoi_flip(
            4,
            triangles.as_mut_ptr(),
            6,
            halfedges.as_mut_ptr(),
            6,
            [0, 1, 2, 3].as_ptr(),
            4,
            table.as_mut_ptr(),
            4,
            work.as_mut_ptr(),
            4,
            0,
        )
    })
}

fn reached() -> Vec<Refusal> {
    let (mut count, mut numbers) = (0, [0.0; 7]);
    vec![
        square(|_, sites, _| sites.truncate(2)),
        raw(unsafe { voronoi_corners(0.0, 0.0, 2.0, 2.0, numbers.as_mut_ptr(), 7) }),
        square(|b, _, _| *b = BoundingBox::new_centered(-1.0, 1.0)),
        cell(&[0, 1], 1),
        built("examples/square.txt").unwrap().cell(0).iter_path(Point { x: f64::NAN, y: 0.0 }).err().unwrap(),
        square(|_, sites, _| sites[1].x = f64::INFINITY),
        square(|_, _, mesh| mesh.triangles[1] = 0),
        square(|_, _, mesh| mesh.halfedges[2] = EMPTY),
        square(|_, _, mesh| mesh.hull.truncate(3)),
        refused("harness/why/refused_10_two_fans.txt"),
        refused("harness/meshes/refused_11_line.txt"),
        refused("harness/meshes/refused_12_underflow.txt"),
        refused("harness/meshes/refused_13_lone.txt"),
        refused("harness/meshes/refused_14_extension_inside.txt"),
        cell(&[0, 2], 0),
        form(&[]),
        ring([0.0; 6], [0, 1, 3]),
        mended_twice(),
        form(&[6]),
        raw(unsafe { voronoi_read_multipoint([1].as_ptr(), 1, numbers.as_mut_ptr(), 6, &mut count) }),
        raw(unsafe { voronoi_grid_sites([0, 0, 1, 0, 0, 8193].as_ptr(), 6, numbers.as_mut_ptr(), 6) }),
        flipped(),
        ring([0.0, 0.0, 1.0, 0.0, f64::NAN, 1.0], [0, 1, 2]),
        mirrored(),
    ]
}

/// The header's numbers with their words.
fn of_the_header() -> BTreeMap<u32, String> {
    let header = text("include/voronoi.h");
    let words = |name: &str| {
        let begin = format!("case {name}: return \"");
        let rest = header.split(&begin).nth(1).unwrap_or_else(|| panic!("the header has no words for {name}"));
        rest.split("\";").next().unwrap().to_string()
    };
    let names = header.lines().filter_map(|l| l.strip_prefix("#define ")).filter_map(|l| l.split_whitespace().next());
    names.filter(|n| n.starts_with("VORONOI_REFUSED_")).map(|n| (defined(n), words(n))).collect()
}

#[test]
fn each_is_reached_with_its_words() {
    let numbers: Vec<u32> = reached().into_iter().map(Refusal::number).collect();
    assert_eq!(numbers, (1..=25).filter(|n| *n != 15).collect::<Vec<u32>>());
    let header = of_the_header();
    assert_eq!(numbers, header.keys().copied().collect::<Vec<u32>>());
    for refusal in reached() {
        let help = refusal.words().strip_prefix(header[&refusal.number()].as_str()).and_then(|rest| rest.strip_prefix("; "));
        assert!(help.map_or(false, |h| !h.is_empty()), "{refusal}: the header says {}", header[&refusal.number()]);
        let place = refusal.place().map_or(String::new(), |place| format!(" at {place}"));
        assert_eq!(refusal.to_string(), format!("refused {}{place}: {}", refusal.number(), refusal.words()));
        let error: Box<dyn std::error::Error> = refusal.into();
        assert!(error.source().is_none());
    }
}

#[test]
fn numbers_that_are_none() {
    assert_eq!(Refusal::of_number(0), None);
    for number in [15, 26, u32::MAX] {
        let other = Refusal::of_number(number).unwrap();
        assert_eq!((other.number(), other.place(), other == Refusal::Count), (number, None, false));
        assert!(other.words().starts_with("no such number; "));
    }
}

/// Each refusal of a mesh has its place, as `voronoi_why` names it: the rows of docs/use/RULES.md on "square".
#[test]
fn places() {
    let at = |refusal: Refusal| (refusal.number(), refusal.place());
    assert_eq!(at(square(|_, _, mesh| mesh.hull.truncate(3))), (9, Some(Place::HullPlace(2))));
    assert_eq!(at(square(|_, _, mesh| mesh.halfedges[3] = EMPTY)), (8, Some(Place::HalfEdge(2))));
    assert_eq!(at(square(|_, _, mesh| mesh.triangles[4] = 9)), (7, Some(Place::Triangle(1))));
    assert_eq!(at(square(|_, sites, _| sites[2].y = f64::NAN)), (6, Some(Place::Site(2))));
    assert_eq!(at(square(|_, sites, _| sites[2] = Point { x: -0.5, y: 1.5 })), (11, Some(Place::Triangle(0))));
    assert_eq!(at(square(|b, _, _| *b = BoundingBox::new_centered_square(0.0))), (3, None));
    assert_eq!(at(square(|b, _, _| *b = BoundingBox::from_edges(1.0, 0.0, -1.0, 1.0))), (3, None));
    let edge = refused("harness/meshes/refused_13_lone.txt");
    assert!(matches!(at(edge), (13, Some(Place::Edge { .. }))), "{edge:?}");
    // 25 is the cutting's own: a build of the same mesh is refused by another rule, whose place is none of 25's
    let turned = |make: fn(Vec<Point>, BoundingBox, Triangulation) -> Result<Voronoi, Refusal>| {
        let sites = [(0.5, 0.5), (-0.5, 0.0), (0.75, 0.5)].map(|(x, y)| Point { x, y }).to_vec();
        let mesh = Triangulation { triangles: vec![0, 1, 2], halfedges: vec![EMPTY; 3], hull: vec![0, 1, 2] };
        make(sites, BoundingBox::default(), mesh)
    };
    assert!(matches!(at(turned(Voronoi::new).unwrap_err()), (13, Some(_))));
    assert_eq!(at(turned(Voronoi::cut).unwrap_err()), (25, None));
    // a site that the builder cannot place, by its number in the list that was given
    let sites = vec![Point::default(), Point { x: 5.0, y: 0.0 }, Point { x: 1e36, y: 0.0 }];
    let refusal = VoronoiBuilder::default().set_sites(sites).build(|_| Triangulation::default()).unwrap_err();
    assert_eq!(at(refusal), (6, Some(Place::Site(2))));
    assert_eq!(refusal.to_string().split(": ").next(), Some("refused 6 at site 2"));
}

#[test]
fn through_the_builder() {
    let none = |_: &[Point]| Triangulation::default();
    let at = |x: f64| VoronoiBuilder::default().set_sites(vec![Point { x, y: 0.0 }; 3]);
    assert_eq!(VoronoiBuilder::default().build(none).unwrap_err(), Refusal::Count);
    assert_eq!(at(0.0).build(none).unwrap_err(), Refusal::Count);
    assert_eq!(at(f64::NAN).build(none).unwrap_err(), Refusal::Coordinate);
    assert_eq!(at(1e36).build(none).unwrap_err(), Refusal::Coordinate);
    assert_eq!(at(0.0).set_bounding_box(BoundingBox::new_centered_square(0.0)).build(none).unwrap_err(), Refusal::Box);
}

#[test]
fn of_the_box_and_its_points() {
    let flat = BoundingBox::new_centered(1.0, 0.0);
    for answer in [flat.left(), flat.top(), flat.right(), flat.bottom(), flat.width(), flat.height()] {
        assert_eq!(answer, Err(Refusal::Box));
    }
    assert_eq!((flat.corners().err(), flat.is_inside(&Point::default()).err()), (Some(Refusal::Box), Some(Refusal::Box)));
    let (sound, nowhere) = (BoundingBox::default(), Point { x: 0.0, y: f64::NAN });
    assert_eq!(sound.is_inside(&nowhere), Err(Refusal::Coordinate));
    assert_eq!(sound.is_exclusively_inside(&nowhere), Err(Refusal::Coordinate));
}

/// Numbers beyond the library's are refused for what they are: no site, no half-edge, and not "no pair".
#[test]
fn indexes_beyond_32_bits() {
    for beyond in [u32::MAX as usize - 1, u32::MAX as usize, u32::MAX as usize + 1, EMPTY - 1] {
        assert_eq!(square(|_, _, mesh| mesh.triangles[1] = beyond), Refusal::Triangle);
        assert_eq!(square(|_, _, mesh| mesh.halfedges[0] = beyond), Refusal::Pairing);
        assert_eq!(square(|_, _, mesh| mesh.hull[3] = beyond), Refusal::Hull);
    }
    assert_eq!(square(|_, _, mesh| mesh.triangles[1] = EMPTY), Refusal::Triangle);
    assert_eq!(square(|_, _, mesh| mesh.hull[3] = EMPTY), Refusal::Hull);
}

#[test]
fn more_than_the_limits() {
    assert_eq!(square(|_, sites, _| sites.resize(65_537, Point::default())), Refusal::Count);
    assert_eq!(square(|_, _, mesh| mesh.triangles.resize(3 * 131_073, 0)), Refusal::Count);
    assert_eq!(square(|_, _, mesh| mesh.hull.resize(65_537, 0)), Refusal::Count);
    assert_eq!(square(|_, _, mesh| mesh.triangles.truncate(5)), Refusal::Count);
}

#[test]
#[should_panic(expected = "there is no site 4 of 4")]
fn an_index_out_of_range() {
    built("examples/square.txt").unwrap().cell(4);
}
