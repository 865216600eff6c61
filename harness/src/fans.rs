//! Rule 10 before what comes after it: meshes whose fan is broken beside a fault of rules 11 to 14 or 25, put to every call that tries both.
//! What a call would answer without rule 10 is counted; by the rules it answers 10, and leaves what is left after 10.

use crate::cases::Case;
use crate::compare;
use crate::cut;
use crate::edges;
use crate::expect::{Facts, Lengths};
use crate::generate::damage;
use crate::generate::rng::Rng;
use crate::library::Call;
use crate::mesh::Mesh;
use crate::reference::{self, Counts, Edges, Outcome};
use crate::tally::Tally;
use crate::why;

/// What the build would answer without rule 10 on a mesh that breaks it and no rule before.
pub fn built_without(m: &Mesh, e: &Edges) -> u32 {
    reference::build_within(m, *e, &mut Counts::default()).err().map_or(0, |f| f.number)
}

/// The same of the cutting.
pub fn cut_without(m: &Mesh, e: &Edges) -> u32 {
    cut::pieces(m, e, &reference::leftmost(m)).err().unwrap_or(0)
}

/// The mesh of a case that the build refuses by 11 to 14, with a fan broken; where some tries do it so that the same rule would be next.
/// Meshes at the limits of the counts are left as they are.
pub fn broken(index: u64, c: &Case, outcome: Option<&Outcome>) -> Option<Mesh> {
    let Some(Err(fault)) = outcome.filter(|_| c.mesh.count() < 1024) else { return None };
    let r = &mut Rng::new(0x66616e73, index);
    let e = reference::edges(&c.area);
    let mut made = || {
        let mut m = c.mesh.clone();
        damage::fan(r, &mut m);
        m
    };
    let mut m = made();
    for _ in 0..3 {
        if built_without(&m, &e) != fault.number {
            m = made();
        }
    }
    Some(m)
}

/// The build, the reason and the cutting on such a mesh.
pub fn ask(index: u64, c: &Case, outcome: Option<&Outcome>, calls: &mut Vec<Call>, tally: &mut Tally) -> Result<(), String> {
    let Some(mesh) = broken(index, c, outcome) else { return Ok(()) };
    let facts = Facts::of(&mesh);
    if facts.topology != 10 {
        return Err(format!("fans: the broken fan is refused by {}", facts.topology));
    }
    let c = Case { lengths: Lengths::exact(&mesh), mesh, ..c.clone() };
    compare::build(&c, &facts, None, calls, tally)?;
    why::put(&mut Rng::new(0x776879, index), &c, &facts, None, calls, tally)?;
    edges::ask(index, &c, &facts, None, calls, tally)?;
    cut::ask(index, &c, &facts, calls, tally)
}
