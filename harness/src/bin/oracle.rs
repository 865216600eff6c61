//! Reads a text mesh (see src/text.rs) from the named file or standard input and prints what the Rust's release
//! build answers, with the marks and refusals that the rules (docs/use/RULES.md) add beside it.
//!
//!     oracle [FILE]            one mesh
//!     oracle --check FILE..    only whether each file's `answer` lines are among what would be printed
//!     oracle --form FILE       the mesh as the program `cells` reads it, on standard output
//!     oracle --listing FILE    what the program `cells` must print for it
//!     oracle --why FILE [SITE [SITE]]    what the program `why` must print for it
//!     oracle --mend FILE       what the program `mend` must print for it
//!     oracle --place FILE      the refusal's number, place, from and to, E where there is none, 0 E E E where it builds

use harness::mesh::{Mesh, Pt};
use harness::reference::{self, Counts, Mark};
use harness::text::{self, row, show};
use harness::why::{self, Question};
use harness::{form, mend, rust};
use std::io::{Read, Write};

const USAGE: &str = "oracle [FILE]            one mesh, from a text: what the Rust answers
oracle --check FILE..    only whether each file's `answer` lines are among what would be printed
oracle --form FILE       the mesh as the program `cells` reads it, on standard output
oracle --listing FILE    what the program `cells` must print for it
oracle --why FILE [SITE [SITE]]    what the program `why` must print for it
oracle --mend FILE       what the program `mend` must print for it
oracle --place FILE      the refusal's number, place, from and to; E where there is none, 0 E E E where it builds";

fn main() {
    rust::quiet();
    let args: Vec<String> = std::env::args().skip(1).collect();
    const VERBS: [&str; 6] = ["--check", "--form", "--listing", "--mend", "--why", "--place"];
    if args.iter().any(|a| a == "--help" || a == "-h") {
        println!("{USAGE}");
        return;
    }
    let verb = args.first().is_some_and(|a| VERBS.contains(&a.as_str()));
    if args[usize::from(verb)..].iter().any(|a| a.starts_with('-')) || (!verb && args.len() > 1) {
        stop(&format!("unknown words: {}\n{USAGE}", args.join(" ")));
    }
    let open = |file: &String| std::fs::read_to_string(file).unwrap_or_else(|e| stop(&format!("{file}: {e}")));
    if args.first().is_some_and(|a| a == "--check") {
        let mut answers = 0;
        for file in &args[1..] {
            let input = text::read(&open(file)).unwrap_or_else(|e| stop(&format!("{file}: {e}")));
            let lines = listing(&input);
            if input.answers.is_empty() {
                stop(&format!("{file}: no answer is stored"));
            }
            for a in &input.answers {
                if !lines.iter().any(|l| l == a) {
                    stop(&format!("{file}: not answered: {a}\n{}", lines.join("\n")));
                }
                answers += 1;
            }
        }
        println!("{} meshes with {answers} stored lines: all answered", args.len() - 1);
        return;
    }
    if let [verb @ ("--form" | "--listing" | "--mend"), file] = &args.iter().map(String::as_str).collect::<Vec<_>>()[..] {
        let input = text::read(&open(&file.to_string())).unwrap_or_else(|e| stop(&format!("{file}: {e}")));
        if *verb == "--form" {
            std::io::stdout().write_all(&form::bytes(&input.mesh, input.clip.as_ref())).unwrap();
        } else if *verb == "--mend" {
            mended(&input).unwrap_or_else(|e| stop(&e)).iter().for_each(|line| println!("{line}"));
        } else {
            print!("{}", form::listing(&input.mesh, input.clip.as_ref()).unwrap_or_else(|e| stop(&e)));
        }
        return;
    }
    if let Some(verb @ ("--why" | "--place")) = args.first().map(String::as_str) {
        let (file, sites) = args[1..].split_first().unwrap_or_else(|| stop(USAGE));
        let input = text::read(&open(file)).unwrap_or_else(|e| stop(&format!("{file}: {e}")));
        let sites: Option<Vec<u32>> = sites.iter().map(|w| w.parse().ok()).collect();
        let q = match sites {
            Some(s) if s.len() <= 2 && (verb == "--why" || s.is_empty()) => Question::about(&s),
            _ => stop(USAGE),
        };
        let reason = why::told(&input.mesh, input.clip.as_ref(), &q).unwrap_or_else(|e| stop(&e));
        if verb == "--why" {
            println!("{}", reason.line(&q));
        } else {
            let [_, place, from, to] = reason.numbers();
            println!("{} {}", reason.number, text::list(&[place, from, to]));
        }
        return;
    }
    let text = match args.first() {
        Some(file) => open(file),
        None => {
            let mut text = String::new();
            std::io::stdin().read_to_string(&mut text).unwrap_or_else(|e| stop(&e.to_string()));
            text
        }
    };
    let input = text::read(&text).unwrap_or_else(|e| stop(&e));
    for line in listing(&input) {
        println!("{line}");
    }
}

/// What the program `mend` prints.
fn mended(input: &text::Input) -> Result<Vec<String>, String> {
    match input.clip {
        Some(_) => mend::lines(&input.mesh),
        None => Ok(vec!["refused 20".to_string()]),
    }
}

fn stop(words: &str) -> ! {
    eprintln!("{words}");
    std::process::exit(2)
}

/// What is printed for a mesh and the questions beside it.
fn listing(input: &text::Input) -> Vec<String> {
    let mut lines = answers(input);
    for q in &input.reasons {
        let sites: String = [q.first, q.second][..q.asked as usize].iter().map(|s| format!(" {s}")).collect();
        let reason = why::told(&input.mesh, input.clip.as_ref(), q).unwrap_or_else(|e| stop(&e));
        lines.push(format!("why{sites}: {}", reason.line(q)));
    }
    if input.mend {
        lines.extend(mended(input).unwrap_or_else(|e| stop(&e)).iter().map(|line| format!("mend: {line}")));
    }
    lines
}

/// The refusals up to 10 and 11, 12 are the rules', before the Rust is asked; 13 and 14 are its panics.
fn answers(input: &text::Input) -> Vec<String> {
    let m = &input.mesh;
    let Some(area) = &input.clip else {
        return vec!["refused 20".to_string()];
    };
    let number = if !reference::counts_sound(m) {
        1
    } else if !reference::box_sound(area) {
        3
    } else if !reference::coordinates_sound(&m.sites) {
        6
    } else {
        reference::topology(m)
    };
    if number != 0 {
        return vec![format!("refused {number}")];
    }
    let lent = rust::Lent::new(m);
    let mut lines = vec![row("leftmost", &lent.leftmost())];
    let ours = reference::build(m, area, &mut Counts::default());
    let cells = match ours {
        Err(reference::Fault { number: n @ (11 | 12), .. }) => {
            lines.push(format!("refused {n}"));
            None
        }
        _ => match (&ours, rust::build(&lent, area)) {
            (Err(f), Err(Ok(k))) if f.number == k => {
                lines.push(format!("refused {k}"));
                None
            }
            (Ok(o), Ok(t)) if same(o, &t) => {
                lines.extend(built(o));
                Some(t.cells)
            }
            (o, t) => stop(&format!("DIFFERENCE between the Rust and the reading of the rules:\nRust {t:?}\nrules {o:?}")),
        },
    };
    lines.extend(questions(m, &lent, cells, &input.paths));
    lines
}

fn bits(list: &[Pt]) -> Vec<(u64, u64)> {
    list.iter().map(|p| (p.x.to_bits(), p.y.to_bits())).collect()
}

fn same(o: &reference::Build, t: &rust::Built) -> bool {
    o.leftmost == t.leftmost && o.owners == t.owners && o.plain() == t.cells && bits(&o.vertices) == bits(&t.vertices)
}

fn built(b: &reference::Build) -> Vec<String> {
    let mut lines = vec![format!("vertices {}", b.vertices.len())];
    for (i, v) in b.vertices.iter().enumerate() {
        lines.push(format!("vertex {i}: {:#018x} {:#018x}   {} {}", v.x.to_bits(), v.y.to_bits(), show(v.x), show(v.y)));
    }
    for (s, cell) in b.plain().iter().enumerate() {
        lines.push(row(&format!("cell {s}"), cell));
    }
    for (s, cell) in b.cells.iter().enumerate() {
        let words = cell.iter().map(|e| {
            let mark = match e.mark {
                Mark::Circumcenter => 't',
                Mark::Crossing => 'x',
                Mark::Wrapped => 'w',
            };
            format!(" {}{mark}", e.vertex)
        });
        lines.push(format!("marks {s}:{}", words.collect::<String>()));
    }
    lines.push(format!("{} lost {}", row("corners", &b.owners), b.lost));
    lines.push(format!("reused {}", text::list(&b.reused)));
    lines
}

fn questions(m: &Mesh, lent: &rust::Lent, cells: Option<Vec<Vec<u32>>>, paths: &[(usize, Pt)]) -> Vec<String> {
    let mut lines = Vec::new();
    let built = cells.is_some();
    let v = rust::diagram(lent, &cells.unwrap_or_else(|| vec![Vec::new(); m.count()]));
    let left = reference::leftmost(m);
    for s in 0..m.count() {
        let (w, n) = (rust::walk(&v, s), rust::neighbours(&v, s));
        assert!(w == reference::walk(m, &left, s) && n == reference::neighbours(m, &left, s));
        lines.push(row(&format!("walk {s}"), &w));
        lines.push(row(&format!("neighbours {s}"), &n));
        if built {
            lines.push(row(&format!("clipped neighbours {s}"), &rust::clipped_neighbours(&v, s)));
        }
    }
    for &(s, to) in paths {
        let head = format!("path {s} to {} {}", show(to.x), show(to.y));
        if s >= m.count() {
            lines.push(format!("{head}: refused 4"));
        } else if !(reference::ordinary(to.x) && reference::ordinary(to.y)) {
            lines.push(format!("{head}: refused 5"));
        } else {
            let p = rust::path(&v, s, to);
            assert!(p == reference::path(m, &left, s, to));
            lines.push(row(&head, &p));
        }
    }
    lines
}
