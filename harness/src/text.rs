//! Meshes as text that a person can write, and numbers that keep every bit.
//!
//! One record to a line; `#` starts a comment.
//!
//!     box CX CY WIDTH HEIGHT      or  unclipped, as meshes of old have it, which is refused with 20
//!     site X Y
//!     triangle A B C  P Q R       sites, then the pair of each half-edge (E: none)
//!     hull S ...
//!     path SITE X Y               a question beside the mesh, any number of them
//!     why [SITE [SITE]]           likewise: the reason, where nothing, a site or a pair is asked about
//!     mend                        likewise: what is changed where the pairs and the hull are worked out afresh
//!     answer ...                  a line that the oracle must print, any number of them
//!
//! A float is decimal, a bit pattern 0x.., a power 2^-50 or a sum such as .5+2^-50.

use crate::mesh::{pt, Area, Mesh, Pt, EMPTY};
use crate::why::Question;

#[derive(Clone, Debug, Default)]
pub struct Input {
    pub clip: Option<Area>,
    pub mesh: Mesh,
    pub paths: Vec<(usize, Pt)>,
    pub reasons: Vec<Question>,
    pub mend: bool,
    pub answers: Vec<String>,
}

fn term(t: &str) -> Option<f64> {
    if let Some(hex) = t.strip_prefix("0x") {
        return u64::from_str_radix(hex, 16).ok().map(f64::from_bits);
    }
    let (negative, body) = match t.strip_prefix('-') {
        Some(rest) => (true, rest),
        None => (false, t.strip_prefix('+').unwrap_or(t)),
    };
    let value = match body.strip_prefix("2^") {
        Some(k) => power(k.parse().ok()?),
        None => body.parse().ok()?,
    };
    Some(if negative { -value } else { value })
}

/// 2 to the k, exact, down to the least subnormal.
pub fn power(k: i32) -> f64 {
    match k {
        -1022..=1023 => f64::from_bits(((k + 1023) as u64) << 52),
        -1074..=-1023 => f64::from_bits(1u64 << (k + 1074)),
        _ if k > 1023 => f64::INFINITY,
        _ => 0.0,
    }
}

pub fn float(word: &str) -> Option<f64> {
    // Split before each sign that is no exponent's and not the first character.
    let b = word.as_bytes();
    let mut cuts = vec![0];
    for i in 1..b.len() {
        if (b[i] == b'+' || b[i] == b'-') && !matches!(b[i - 1], b'e' | b'E' | b'^') {
            cuts.push(i);
        }
    }
    cuts.push(b.len());
    if word.starts_with("0x") || cuts.len() == 2 {
        return term(word);
    }
    let mut sum = term(&word[..cuts[1]])?;
    for w in cuts.windows(2).skip(1) {
        sum += term(&word[w[0]..w[1]])?;
    }
    Some(sum)
}

fn index(word: &str) -> Option<u32> {
    match word {
        "E" | "e" => Some(EMPTY),
        _ => word.parse().ok(),
    }
}

pub fn read(text: &str) -> Result<Input, String> {
    let mut input = Input::default();
    for (number, line) in text.lines().enumerate() {
        let line = line.split('#').next().unwrap();
        let mut words = line.split_whitespace();
        let Some(kind) = words.next() else { continue };
        let rest: Vec<&str> = words.collect();
        let wrong = |what: &str| format!("line {}: {what}: {line}", number + 1);
        let floats = |r: &[&str]| r.iter().map(|w| float(w)).collect::<Option<Vec<f64>>>();
        let indexes = |r: &[&str]| r.iter().map(|w| index(w)).collect::<Option<Vec<u32>>>();
        match (kind, rest.len()) {
            ("box", 4) => {
                let f = floats(&rest).ok_or_else(|| wrong("no number"))?;
                input.clip = Some(Area { x: f[0], y: f[1], width: f[2], height: f[3] });
            }
            ("unclipped", 0) => input.clip = None,
            ("site", 2) => input.mesh.sites.extend(floats(&rest).ok_or_else(|| wrong("no number"))?),
            ("triangle", 6) => {
                let i = indexes(&rest).ok_or_else(|| wrong("no index"))?;
                input.mesh.triangles.extend(&i[..3]);
                input.mesh.halfedges.extend(&i[3..]);
            }
            ("hull", _) => input.mesh.hull.extend(indexes(&rest).ok_or_else(|| wrong("no index"))?),
            ("why", 0..=2) => {
                let sites = rest.iter().map(|w| w.parse()).collect::<Result<Vec<u32>, _>>().map_err(|_| wrong("no site"))?;
                input.reasons.push(Question::about(&sites));
            }
            ("mend", 0) => input.mend = true,
            ("answer", _) => input.answers.push(rest.join(" ")),
            ("path", 3) => {
                let f = floats(&rest[1..]).ok_or_else(|| wrong("no number"))?;
                let s = rest[0].parse().map_err(|_| wrong("no site"))?;
                input.paths.push((s, pt(f[0], f[1])));
            }
            _ => return Err(wrong("not a record")),
        }
    }
    Ok(input)
}

/// A float so that reading it back gives the same bits.
pub fn show(x: f64) -> String {
    if x.is_finite() {
        format!("{x:?}")
    } else {
        format!("{:#018x}", x.to_bits())
    }
}

pub fn list(l: &[u32]) -> String {
    let word = |&i: &u32| if i == EMPTY { "E".to_string() } else { i.to_string() };
    l.iter().map(word).collect::<Vec<_>>().join(" ")
}

/// `word:` and the list, with no blank after the colon where the list is empty.
pub fn row(head: &str, l: &[u32]) -> String {
    if l.is_empty() {
        format!("{head}:")
    } else {
        format!("{head}: {}", list(l))
    }
}

pub fn write(m: &Mesh, clip: Option<&Area>) -> String {
    let mut out = String::new();
    match clip {
        Some(a) => {
            let f = [a.x, a.y, a.width, a.height].map(show);
            out += &format!("box {}\n", f.join(" "));
        }
        None => out += "unclipped\n",
    }
    for c in m.sites.chunks(2) {
        out += &format!("site {}\n", c.iter().map(|&x| show(x)).collect::<Vec<_>>().join(" "));
    }
    for (t, p) in m.triangles.chunks(3).zip(m.halfedges.chunks(3)) {
        out += &format!("triangle {}  {}\n", list(t), list(p));
    }
    out += &format!("hull {}\n", list(&m.hull));
    out
}
