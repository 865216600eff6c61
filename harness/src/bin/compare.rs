//! Puts cases to the Rust, to the rules (docs/use/RULES.md) read a second time and to the proved library, and tells the first difference.
//!
//!     compare [--cases N] [--mends N] [--grids N] [--flips N] [--audits N] [--certificates N] [--forms N] [--plane N] [--roots N] [--seed S] [--from I]
//!     compare --case I [--seed S]      one mesh case alone, with its mesh
//!     compare --mend I [--seed S]      one mesh to be mended alone
//!     compare --grid I [--seed S]      one mesh on the grid alone
//!     compare --flip I [--seed S]      one mesh alone, each half-edge flipped
//!     compare --audit I [--seed S]     pieces to be audited alone
//!     compare --certificate I [--seed S]   pieces to be certified alone
//!     compare --form I [--seed S]      one form alone
//!
//! By default 20,000 meshes, 20,000 to be mended, 20,000 on the grid, 5,000 with each half-edge flipped, 40,000 pieces to be audited,
//! 40,000 to be certified, 10,000 forms, 100,000 inputs to each plane function and 10,000 patterns of each class to the roots.
//! The library is served by the command in VORONOI_SERVER (harness/serve.sh makes it).

use harness::cases::Case;
use harness::expect::Facts;
use harness::library::{Call, Difference, Library};
use harness::reference::{self, Counts};
use harness::tally::{Tally, CALLS};
use harness::words::Words;
use harness::{audit, certify, compare, fans, flip, grid, mend, plane, reader, roots, rust, text, why};
use std::time::{Duration, Instant};

const USAGE: &str = "compare [--cases N] [--mends N] [--grids N] [--flips N] [--audits N] [--certificates N] [--forms N] [--plane N] [--roots N] [--seed S] [--from I]
compare --case I [--seed S]      one mesh case alone, with its mesh
compare --mend I [--seed S]      one mesh to be mended alone
compare --grid I [--seed S]      one mesh on the grid alone
compare --flip I [--seed S]      one mesh alone, each half-edge flipped
compare --audit I [--seed S]     pieces to be audited alone
compare --certificate I [--seed S]   pieces to be certified alone
compare --form I [--seed S]      one form alone
By default 20,000 meshes, 20,000 to be mended, 20,000 on the grid, 5,000 with each half-edge flipped, 40,000 pieces to be audited,
40,000 to be certified, 10,000 forms, 100,000 inputs to each plane function and 10,000 patterns of each class to the roots; 0 leaves a part out.";

fn main() {
    let parts = ["--cases", "--mends", "--grids", "--flips", "--audits", "--certificates", "--forms", "--plane", "--roots"];
    let alone = ["--case", "--mend", "--grid", "--flip", "--audit", "--certificate", "--form"];
    let numbered = [&parts[..], &alone, &["--seed", "--from"]].concat();
    let words = Words::read(USAGE, &numbered, &[]);
    let option = |name: &str| words.number(name);
    let seed = option("--seed").unwrap_or(1);
    rust::quiet();
    let mut library = Library::start().unwrap_or_else(|e| stop(&e));

    if let Some(i) = option("--case") {
        let case = Case::random(seed, i);
        print!("{}", text::write(&case.mesh, Some(&case.area)));
        println!("{:?}", Case { mesh: Default::default(), ..case.clone() });
        if let Some(mesh) = why::worse(i, &case) {
            print!("and made worse, where the reason alone is asked for:\n{}", text::write(&mesh, Some(&case.area)));
        }
        let sound = Facts::of(&case.mesh).accepted() && reference::box_sound(&case.area);
        let outcome = sound.then(|| reference::build(&case.mesh, &case.area, &mut Counts::default()));
        if let Some(mesh) = fans::broken(i, &case, outcome.as_ref()) {
            print!("and with a broken fan, where the calls that would refuse without it are asked:\n{}", text::write(&mesh, Some(&case.area)));
        }
        let told = compare::run(i, &case, &mut library, &mut Tally::new()).and_then(|()| library.flush());
        match told {
            Ok(()) => println!("no difference"),
            Err(d) => stop(&d.words),
        }
        return;
    }

    if let Some(i) = option("--mend") {
        let case = mend::Case::random(seed, i);
        print!("{}", text::write(&case.mesh, None));
        println!("lent: work, pairs, hull, changes {:?}", case.lengths);
        match mend::run_one(i, &case, &mut library, &mut mend::Seen::default()).and_then(|()| library.flush()) {
            Ok(()) => println!("no difference"),
            Err(d) => stop(&d.words),
        }
        return;
    }

    if let Some(i) = option("--grid") {
        let case = grid::Case::random(seed, i);
        println!("{case:?}\nmust be {:?}", case.answer());
        match grid::run_one(i, &case, &mut library, &mut grid::Seen::default()).and_then(|()| library.flush()) {
            Ok(()) => println!("no difference"),
            Err(d) => stop(&d.words),
        }
        return;
    }

    if let Some(i) = option("--flip") {
        let case = flip::Case::random(seed, i);
        print!("{}", text::write(&case.mesh, None));
        println!("lent: sites {}, table {:?}, work {}", case.sites, case.table, case.work);
        let told = flip::run_one(i, &case, &mut library, &mut flip::Seen::default(), &mut Tally::new()).and_then(|()| library.flush());
        match told {
            Ok(()) => println!("no difference"),
            Err(d) => stop(&d.words),
        }
        return;
    }

    if let Some(i) = option("--audit") {
        let case = audit::Case::random(seed, i);
        println!("{case:?}\nmust be {} {:?}", case.number(), (case.number() == 0).then(|| case.verdict()));
        match audit::run_one(i, &case, &mut library, &mut audit::Seen::default()).and_then(|()| library.flush()) {
            Ok(()) => println!("no difference"),
            Err(d) => stop(&d.words),
        }
        return;
    }

    if let Some(i) = option("--certificate") {
        let (case, origin) = certify::Case::random(seed, i);
        println!("{case:?}\nmust be {} {:?}", case.number(), (case.number() == 0).then(|| certify::verdict(&case.pieces)));
        match certify::run_one(i, &case, origin, &mut library, &mut certify::Seen::default()).and_then(|()| library.flush()) {
            Ok(()) => println!("no difference"),
            Err(d) => stop(&d.words),
        }
        return;
    }

    if let Some(i) = option("--form") {
        let case = reader::Case::random(seed, i);
        println!("{case:?}");
        match reader::run_one(i, &case, &mut library, &mut reader::Seen::default()).and_then(|()| library.flush()) {
            Ok(()) => println!("no difference"),
            Err(d) => stop(&d.words),
        }
        return;
    }

    match library.names() {
        [] => println!("NO LIBRARY: only the Rust and the rules are compared"),
        names => println!("The library is asked: {}", names.join(" ")),
    }
    let cases = option("--cases").unwrap_or(20_000);
    let mut holes = Vec::new();
    if cases > 0 {
        holes.extend(meshes(seed, option("--from").unwrap_or(0), cases, &mut library));
    }
    let n = option("--mends").unwrap_or(20_000);
    if n > 0 {
        holes.extend(mends(seed, option("--from").unwrap_or(0), n, &mut library));
    }
    let n = option("--grids").unwrap_or(20_000);
    if n > 0 {
        holes.extend(grids(seed, option("--from").unwrap_or(0), n, &mut library));
    }
    let n = option("--flips").unwrap_or(5_000);
    if n > 0 {
        holes.extend(flips(seed, option("--from").unwrap_or(0), n, &mut library));
    }
    let n = option("--audits").unwrap_or(40_000);
    if n > 0 {
        holes.extend(audits(seed, option("--from").unwrap_or(0), n, &mut library));
    }
    let n = option("--certificates").unwrap_or(40_000);
    if n > 0 {
        holes.extend(certificates(seed, option("--from").unwrap_or(0), n, &mut library));
    }
    let n = option("--forms").unwrap_or(10_000);
    if n > 0 {
        holes.extend(forms(seed, option("--from").unwrap_or(0), n, &mut library));
    }
    let n = option("--plane").unwrap_or(100_000);
    if n > 0 {
        let before = library.compared;
        let seen = plane::run(seed, n, &mut library).unwrap_or_else(|d| tell("plane", seed, &d));
        holes.extend(plane::report(&seen));
        println!("\n{n} inputs to each plane function, {} calls of the library compared, 0 differences", library.compared - before);
    }
    if library.has("version") {
        let weights = [10_000, 100, 1];
        let parts = include_str!("../../../VERSION").trim().split('.').map(|part| part.parse().unwrap_or(u32::MAX / 20_000));
        let number = parts.zip(weights).map(|(part, weight): (u32, u32)| part * weight).sum();
        library.put(0, Call::new("version").gives(number)).unwrap_or_else(|d| tell("version", seed, &d));
        library.flush().unwrap_or_else(|d| tell("version", seed, &d));
        println!("\nThe archive's version is that of the file VERSION: {number}");
    }
    let n = option("--roots").unwrap_or(10_000);
    if n > 0 && library.has("root_bits") {
        let before = library.compared;
        roots::run(seed, n, &mut library).unwrap_or_else(|d| tell("root", seed, &d));
        println!("\nRoots: {n} patterns of each class ({}), {} calls compared, 0 differences", roots::CLASSES.join(", "), library.compared - before);
    }
    if !holes.is_empty() {
        stop(&format!("never came up: {}", holes.join(", ")));
    }
}

/// A line every ten seconds.
struct Progress {
    start: Instant,
    told: Instant,
}

impl Progress {
    fn tell(&mut self, done: u64, cases: u64, library: &Library) {
        if self.told.elapsed() > Duration::from_secs(10) {
            self.told = Instant::now();
            let seconds = self.start.elapsed().as_secs_f64();
            eprintln!("{done} of {cases} cases, {} calls of the library compared, no difference, {seconds:.0} s", library.compared);
        }
    }
}

/// The limits, then the random cases; gives what never came up.
fn meshes(seed: u64, from: u64, cases: u64, library: &mut Library) -> Vec<String> {
    let mut tally = Tally::new();
    let start = Instant::now();
    for (name, case) in Case::limits(seed) {
        let told = compare::run(0, &case, library, &mut tally).and_then(|()| library.flush());
        told.unwrap_or_else(|d| stop(&format!("DIFFERENCE in the limit case \"{name}\" of seed {seed}\n{}", d.words)));
    }
    let mut progress = Progress { start, told: start };
    for i in from..from + cases {
        compare::run(i, &Case::random(seed, i), library, &mut tally).unwrap_or_else(|d| differs(seed, &d));
        progress.tell(i - from + 1, cases, library);
    }
    library.flush().unwrap_or_else(|d| differs(seed, &d));
    let holes = tally.report();
    let asked = CALLS.iter().filter(|c| library.has(c.name)).count();
    println!(
        "\n{} mesh cases, {} calls of the library ({asked} of {} functions on meshes) compared, 0 differences, {:.1} s",
        tally.cases, library.compared, CALLS.len(), start.elapsed().as_secs_f64()
    );
    holes
}

/// The largest meshes, then the edited ones; gives what never came up.
fn mends(seed: u64, from: u64, cases: u64, library: &mut Library) -> Vec<String> {
    let mut seen = mend::Seen::default();
    let (start, before) = (Instant::now(), library.compared);
    for (name, case) in mend::Case::limits(seed) {
        let told = mend::run_one(0, &case, library, &mut seen).and_then(|()| library.flush());
        told.unwrap_or_else(|d| stop(&format!("DIFFERENCE in mending \"{name}\" of seed {seed}\n{}", d.words)));
    }
    let wrong = |d: Difference| {
        print!("{}", text::write(&mend::Case::random(seed, d.case).mesh, None));
        stop(&format!("DIFFERENCE in mending {0} of seed {seed} (again: compare --mend {0} --seed {seed})\n{1}", d.case, d.words))
    };
    let mut progress = Progress { start, told: start };
    for i in from..from + cases {
        mend::run_one(i, &mend::Case::random(seed, i), library, &mut seen).unwrap_or_else(wrong);
        progress.tell(i - from + 1, cases, library);
    }
    library.flush().unwrap_or_else(wrong);
    let holes = seen.report();
    let asked = library.compared - before;
    println!("\n{cases} edited meshes, {asked} calls of the library compared, 0 differences, {:.1} s", start.elapsed().as_secs_f64());
    holes
}

/// The largest meshes on the grid, then random ones; gives what never came up.
fn grids(seed: u64, from: u64, cases: u64, library: &mut Library) -> Vec<String> {
    let mut seen = grid::Seen::default();
    let (start, before) = (Instant::now(), library.compared);
    for (name, case) in grid::Case::limits() {
        let told = grid::run_one(0, &case, library, &mut seen).and_then(|()| library.flush());
        told.unwrap_or_else(|d| stop(&format!("DIFFERENCE on the grid, \"{name}\"\n{}", d.words)));
    }
    let wrong = |d: Difference| stop(&format!("DIFFERENCE on the grid {0} of seed {seed} (again: compare --grid {0} --seed {seed})\n{1}", d.case, d.words));
    let mut progress = Progress { start, told: start };
    for i in from..from + cases {
        grid::run_one(i, &grid::Case::random(seed, i), library, &mut seen).unwrap_or_else(wrong);
        progress.tell(i - from + 1, cases, library);
    }
    library.flush().unwrap_or_else(wrong);
    let holes = seen.report();
    let asked = library.compared - before;
    println!("\n{cases} meshes on the grid, {asked} calls of the library compared, 0 differences, {:.1} s", start.elapsed().as_secs_f64());
    holes
}

/// Every half-edge of each mesh; gives what never came up.
fn flips(seed: u64, from: u64, cases: u64, library: &mut Library) -> Vec<String> {
    let (mut seen, mut tally) = (flip::Seen::default(), Tally::new());
    let (start, before) = (Instant::now(), library.compared);
    let wrong = |d: Difference| {
        print!("{}", text::write(&flip::Case::random(seed, d.case).mesh, None));
        stop(&format!("DIFFERENCE in flipping {0} of seed {seed} (again: compare --flip {0} --seed {seed})\n{1}", d.case, d.words))
    };
    let mut progress = Progress { start, told: start };
    for i in from..from + cases {
        flip::run_one(i, &flip::Case::random(seed, i), library, &mut seen, &mut tally).unwrap_or_else(wrong);
        progress.tell(i - from + 1, cases, library);
    }
    library.flush().unwrap_or_else(wrong);
    let holes = seen.report();
    let (asked, built) = (library.compared - before, tally.cases);
    println!(
        "\nEvery half-edge of {cases} meshes, {built} flipped meshes put to every call beside the Rust, {asked} calls of the library compared, 0 differences, {:.1} s",
        start.elapsed().as_secs_f64()
    );
    holes
}

/// The limits, then pieces of builds and rectangles, most of them damaged; gives what never came up.
fn audits(seed: u64, from: u64, cases: u64, library: &mut Library) -> Vec<String> {
    let mut seen = audit::Seen::default();
    let (start, before) = (Instant::now(), library.compared);
    for (name, case) in audit::Case::limits() {
        let told = audit::run_one(0, &case, library, &mut seen).and_then(|()| library.flush());
        told.unwrap_or_else(|d| stop(&format!("DIFFERENCE in the audit, \"{name}\"\n{}", d.words)));
    }
    let wrong = |d: Difference| stop(&format!("DIFFERENCE in the audit {0} of seed {seed} (again: compare --audit {0} --seed {seed})\n{1}", d.case, d.words));
    let mut progress = Progress { start, told: start };
    for i in from..from + cases {
        audit::run_one(i, &audit::Case::random(seed, i), library, &mut seen).unwrap_or_else(wrong);
        progress.tell(i - from + 1, cases, library);
    }
    library.flush().unwrap_or_else(wrong);
    let holes = seen.report();
    let asked = library.compared - before;
    println!("\n{cases} audits, {asked} calls of the library compared, 0 differences, {:.1} s", start.elapsed().as_secs_f64());
    holes
}

/// The limits, then pieces by cutting, of builds and rectangles, most of them changed or damaged; gives what never came up.
fn certificates(seed: u64, from: u64, cases: u64, library: &mut Library) -> Vec<String> {
    let mut seen = certify::Seen::default();
    let (start, before) = (Instant::now(), library.compared);
    for (name, case) in certify::Case::limits() {
        let told = certify::run_one(0, &case, certify::From::Rectangles, library, &mut seen).and_then(|()| library.flush());
        told.unwrap_or_else(|d| stop(&format!("DIFFERENCE in the certificate, \"{name}\"\n{}", d.words)));
    }
    let wrong =
        |d: Difference| stop(&format!("DIFFERENCE in the certificate {0} of seed {seed} (again: compare --certificate {0} --seed {seed})\n{1}", d.case, d.words));
    let mut progress = Progress { start, told: start };
    for i in from..from + cases {
        let (case, origin) = certify::Case::random(seed, i);
        certify::run_one(i, &case, origin, library, &mut seen).unwrap_or_else(wrong);
        progress.tell(i - from + 1, cases, library);
    }
    library.flush().unwrap_or_else(wrong);
    let holes = seen.report();
    let asked = library.compared - before;
    println!("\n{cases} certificates, {asked} calls of the library compared, 0 differences, {:.1} s", start.elapsed().as_secs_f64());
    holes
}

/// Forms, whole and in parts; gives what never came up.
fn forms(seed: u64, from: u64, cases: u64, library: &mut Library) -> Vec<String> {
    let mut seen = reader::Seen::default();
    let (start, before) = (Instant::now(), library.compared);
    let wrong = |d: Difference| stop(&format!("DIFFERENCE in the form {0} of seed {seed} (again: compare --form {0} --seed {seed})\n{1}", d.case, d.words));
    let mut progress = Progress { start, told: start };
    for i in from..from + cases {
        reader::run_one(i, &reader::Case::random(seed, i), library, &mut seen).unwrap_or_else(wrong);
        progress.tell(i - from + 1, cases, library);
    }
    library.flush().unwrap_or_else(wrong);
    let holes = seen.report();
    let asked = library.compared - before;
    println!("\n{cases} forms, {asked} calls of the library compared, 0 differences, {:.1} s", start.elapsed().as_secs_f64());
    holes
}

fn differs(seed: u64, d: &Difference) -> ! {
    let case = Case::random(seed, d.case);
    print!("{}", text::write(&case.mesh, Some(&case.area)));
    stop(&format!("DIFFERENCE in case {0} of seed {seed} (again: compare --case {0} --seed {seed})\n{1}", d.case, d.words))
}

fn tell<T>(what: &str, seed: u64, d: &Difference) -> T {
    stop(&format!("DIFFERENCE in a {what} function, input {} of seed {seed}\n{}", d.case, d.words))
}

fn stop(words: &str) -> ! {
    eprintln!("{words}");
    std::process::exit(1)
}
