//! The program's form and its listing, from the rules (docs/use/RULES.md).

use crate::compare::build_both;
use crate::expect::{mesh_number, Beside, Facts};
use crate::mesh::{Area, Mesh};
use crate::rust;
use crate::tally::Tally;
use crate::text::{list, row};

/// The records of a mesh: one byte of kind, then little-endian numbers. Without a box it is a form of old, which is refused with 20.
pub fn bytes(m: &Mesh, clip: Option<&Area>) -> Vec<u8> {
    let mut out = Vec::new();
    match clip {
        Some(a) => {
            out.push(1);
            [a.x, a.y, a.width, a.height].iter().for_each(|x| out.extend(x.to_le_bytes()));
        }
        None => out.push(6),
    }
    for c in m.sites.chunks_exact(2) {
        out.push(2);
        c.iter().for_each(|x| out.extend(x.to_le_bytes()));
    }
    for (t, p) in m.triangles.chunks_exact(3).zip(m.halfedges.chunks_exact(3)) {
        out.push(3);
        t.iter().chain(p).for_each(|i| out.extend(i.to_le_bytes()));
    }
    for s in &m.hull {
        out.push(4);
        out.extend(s.to_le_bytes());
    }
    out.push(5);
    out
}

/// Whether the form has room for the mesh; rule 17 where not.
pub fn fits(m: &Mesh) -> bool {
    m.count() <= 96 && m.triangle_count() <= 192 && m.hull.len() <= 96
}

/// What the program prints for a sound form: the Rust's answers, or the refusal.
pub fn listing(m: &Mesh, clip: Option<&Area>) -> Result<String, String> {
    let Some(area) = clip else {
        return Ok("refused 20\n".to_string());
    };
    if !fits(m) {
        return Ok("refused 17\n".to_string());
    }
    let number = mesh_number(m, &Facts::of(m), &Beside { room: true, area: Some(area), site: None, to: None });
    if number != 0 {
        return Ok(format!("refused {number}\n"));
    }
    let b = match build_both(m, &rust::Lent::new(m), area, &mut Tally::new())? {
        Ok(b) => b,
        Err(f) => return Ok(format!("refused {}\n", f.number)),
    };
    let mut out = format!("sites {} triangles {} vertices {}\n", m.count(), m.triangle_count(), b.vertices.len());
    for (s, cell) in b.plain().iter().enumerate() {
        out += &format!("{}\n", row(&format!("cell {s}"), cell));
    }
    out += &format!("corners {} lost {}\n", list(&b.owners), b.lost);
    out += &format!("reused {}\n", list(&b.reused));
    Ok(out)
}
