//! Answers of the Rust on small meshes, as words that a program can replay without the Rust at hand.
//!
//! Everything is little-endian u32 words; a float is two, the low one first. The file is the word 0x31524f56, the count
//! of records, and the records one after the other:
//!
//!     words that follow in this record
//!     mode: 1
//!     lengths of the four mesh lists: S floats of sites, T triangle words, E half-edge words, H hull words
//!     box: center x, y, width, height (4 floats)
//!     the sites (S floats), the triangles (T words), the half-edges (E words), the hull (H words)
//!     number: 0 where the build is accepted, else its refusal (every room exact)
//!     where 0:     V, the vertex count; the 4 owners as found; lost corners; 3 counts of reused points;
//!                  the leftmost table (a word a site); V vertices (2 floats each); the offsets (a word a site and one
//!                  more); the entries (as many as the last offset)
//!     where the mesh is accepted (0 or above 10): a site; x and y of a destination (2 floats); then four lists, each
//!                  its length and its words: the site's walk, its neighbours, its neighbours after clipping (of length
//!                  0 where the build is refused), the path to the destination

use crate::cases::Case;
use crate::compare::build_both;
use crate::expect::{mesh_number, Beside, Facts};
use crate::mesh::{pt, Area, Mesh, Pt};
use crate::reference::{self, BRANCHES};
use crate::rust;
use crate::tally::Tally;
use crate::text::Input;

const MAGIC: u32 = 0x31524f56;
/// Each branch and each number stands in at least this many records, where the cases have it.
const WANTED: u32 = 12;
/// At least so many builds are accepted.
const ACCEPTED: u32 = 560;
const LARGEST: usize = 360;
const SEED: u64 = 20260101;

#[derive(Default)]
struct Words(Vec<u32>);

impl Words {
    fn list(&mut self, l: &[u32]) {
        self.0.extend(l);
    }
    fn float(&mut self, x: f64) {
        let b = x.to_bits();
        self.0.extend([b as u32, (b >> 32) as u32]);
    }
    fn counted(&mut self, l: &[u32]) {
        self.0.push(l.len() as u32);
        self.list(l);
    }
}

/// One record, with the number it holds and the branches it took.
struct Record {
    words: Vec<u32>,
    number: u32,
    branches: [u64; BRANCHES],
}

fn record(m: &Mesh, a: &Area, site: u32, to: Pt) -> Result<Record, String> {
    let mut tally = Tally::new();
    let facts = Facts::of(m);
    let mut number = mesh_number(m, &facts, &Beside { room: true, area: Some(a), site: None, to: None });
    let mut w = Words::default();
    w.0.push(1);
    w.list(&[m.sites.len(), m.triangles.len(), m.halfedges.len(), m.hull.len()].map(|n| n as u32));
    [a.x, a.y, a.width, a.height].into_iter().for_each(|x| w.float(x));
    m.sites.iter().for_each(|&x| w.float(x));
    w.list(&m.triangles);
    w.list(&m.halfedges);
    w.list(&m.hull);
    if number != 0 {
        w.0.push(number);
    } else {
        let lent = rust::Lent::new(m);
        let built = build_both(m, &lent, a, &mut tally)?;
        number = built.as_ref().err().map_or(0, |f| f.number);
        w.0.push(number);
        let mut cells = vec![Vec::new(); m.count()];
        if let Ok(b) = &built {
            cells = b.plain();
            w.0.push(b.vertices.len() as u32);
            w.list(&b.owners);
            w.0.push(b.lost);
            w.list(&b.reused);
            w.list(&b.leftmost);
            for v in &b.vertices {
                w.float(v.x);
                w.float(v.y);
            }
            let mut at = 0;
            w.0.push(0);
            for c in &cells {
                at += c.len() as u32;
                w.0.push(at);
            }
            cells.iter().for_each(|c| w.list(c));
        }
        let v = rust::diagram(&lent, &cells);
        let s = site as usize;
        w.0.push(site);
        w.float(to.x);
        w.float(to.y);
        w.counted(&rust::walk(&v, s));
        w.counted(&rust::neighbours(&v, s));
        w.counted(&if built.is_ok() { rust::clipped_neighbours(&v, s) } else { Vec::new() });
        w.counted(&rust::path(&v, s, to));
    }
    Ok(Record { words: w.0, number, branches: tally.branches.0 })
}

/// The whole file: first the named meshes, then cases of a fixed seed, each taken for a branch or number that is still
/// rare or, until enough builds are accepted, for itself. Gives the file and a table of what it has.
pub fn write(named: &[Input]) -> Result<(Vec<u8>, String), String> {
    let mut records = Vec::new();
    let mut numbers = [0u32; 18];
    let mut branches = [0u32; BRANCHES];
    let mut take = |r: Record, numbers: &mut [u32; 18], branches: &mut [u32; BRANCHES]| {
        numbers[r.number as usize] += 1;
        (0..BRANCHES).for_each(|i| branches[i] += (r.branches[i] > 0) as u32);
        records.push(r.words);
    };
    for i in named {
        let to = i.paths.first().map_or(pt(0.5, -0.25), |p| p.1);
        // A mesh of old, without a box, has no build.
        let Some(area) = &i.clip else { continue };
        let r = record(&i.mesh, area, i.paths.first().map_or(0, |p| p.0 as u32), to)?;
        take(r, &mut numbers, &mut branches);
    }
    let mut case = 0;
    while case < 400_000 {
        let c = Case::random(SEED, case);
        case += 1;
        let ordinary = reference::ordinary(c.to.x) && reference::ordinary(c.to.y);
        let to = if ordinary { c.to } else { pt(0.0, 0.0) };
        let site = if (c.site as usize) < c.mesh.count() { c.site } else { 0 };
        let r = record(&c.mesh, &c.area, site, to)?;
        if r.words.len() > LARGEST {
            continue;
        }
        let rare = numbers[r.number as usize] < WANTED
            || (0..BRANCHES).any(|i| r.branches[i] > 0 && branches[i] < WANTED);
        let plain = numbers[0] < ACCEPTED && r.number == 0 && case % 8 == 0;
        if rare || plain {
            take(r, &mut numbers, &mut branches);
        }
        let full = (0..BRANCHES).all(|i| branches[i] >= WANTED)
            && [0, 1, 3, 6, 7, 8, 9, 10, 11, 12, 13, 14].iter().all(|&n: &usize| numbers[n] >= WANTED);
        if full && numbers[0] >= ACCEPTED {
            break;
        }
    }
    let mut words = vec![MAGIC, records.len() as u32];
    for r in &records {
        words.push(r.len() as u32);
        words.extend(r);
    }
    let mut table = format!("{} records, {} bytes, from {case} cases of seed {SEED} and {} named meshes\n", records.len(), 4 * words.len(), named.iter().filter(|i| i.clip.is_some()).count());
    for (n, k) in numbers.iter().enumerate().filter(|(_, k)| **k > 0) {
        table += &format!("number {n}: {k} records\n");
    }
    for i in 0..BRANCHES {
        table += &format!("{}: {} records\n", crate::reference::Counts::name(i), branches[i]);
    }
    if branches.contains(&0) || [11, 12, 13, 14].iter().any(|&n: &usize| numbers[n] == 0) {
        return Err(format!("{table}a branch or a number has no record"));
    }
    Ok((words.iter().flat_map(|w| w.to_le_bytes()).collect(), table))
}
