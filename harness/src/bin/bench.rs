//! Times both sides on the same meshes, in turn, in one run.
//!
//!     bench [--rounds N] [--traps] [--full] [--again]
//!
//!     bench --once SITES       one build by each side on uniform sites, for harness/count.sh
//!     bench --has              the library's calls
//!
//! Without words: uniform sites and the other shapes, those at 65,536 sites by the library alone, which takes as long a site there as at 1,000.
//! `--traps` adds the two traps of the source at 16,000 sites, `--full` at 65,536 too (the Rust needs minutes there). Times are nanoseconds a site, the best and the median
//! of the rounds. The Rust's time is its circumcenters and CellBuilder, with no check; "freed" with the freeing of what it made, which its caller pays
//! too. The library's is its whole public build, and its whole cutting: check, clearing and circumcenters included, in buffers that the caller lends
//! and the call clears. Mesh and buffers are new to each call, where the Rust reads the same mesh again and again; with `--again` the second of two calls in the
//! same ones is timed. A ratio is the library's best over the Rust's best, freed and not freed.

use harness::bench::*;
use harness::expect::{Facts, Lengths, Slices};
use harness::library::{Call, Library};
use harness::mesh::{Area, Mesh};
use harness::rust;
use harness::words::Words;

const USAGE: &str = "bench [--rounds N] [--traps] [--full] [--again]
bench --once SITES       one build by each side on uniform sites, for harness/count.sh
bench --has              the library's calls";

fn main() {
    let words = Words::read(USAGE, &["--rounds", "--once"], &["--traps", "--full", "--again", "--has"]);
    let has = |name: &str| words.has(name);
    let rounds = words.number("--rounds").map(|n| n as usize);
    let mut library = Library::start().unwrap_or_else(|e| {
        eprintln!("{e}");
        std::process::exit(1)
    });
    if has("--has") {
        println!("{}", library.names().join(" "));
        return;
    }
    if let Some(sites) = words.number("--once") {
        let m = uniform(sites as usize, false);
        rust_build(&rust::Lent::new(&m), &wide_box());
        if library.has("time_build") {
            library_once(&m, &wide_box(), "time_build", &mut library);
        }
        return;
    }
    if !library.has("time_build") {
        println!("NO LIBRARY with a build to time: the Rust alone");
    }
    println!(
        "{:28}{:>8}{:>9}{:>10}{:>10}{:>10}{:>10}{:>10}{:>10}{:>7}{:>7}{:>10}{:>10}{:>7}{:>7}",
        "mesh", "sites", "centers", "Rust", "median", "freed", "median", "build", "median", "/freed", "/not", "cut", "median", "/freed", "/not"
    );
    let timed = if has("--again") { ["time_build_again", "time_cut_again"] } else { ["time_build", "time_cut"] };
    let mut row = |name: &str, m: &Mesh, area: &Area, most: usize| time(name, m, area, rounds.unwrap_or(most), true, timed, &mut library);
    for n in [1_000, 10_000, 65_536] {
        let count = 400_000 / n + 12;
        row("uniform, triangles swept", &uniform(n, false), &wide_box(), count);
        row("uniform, triangles shuffled", &uniform(n, true), &wide_box(), count);
    }
    for n in [1_000, 4_000] {
        row("circle", &circle(n), &wide_box(), 9);
        row("strip", &strip(n), &wide_box(), 9);
        row("hub with an empty cell", &hub(n), &small_box(), 5);
    }
    let mut alone = |name: &str, m: &Mesh, area: &Area| time(name, m, area, rounds.unwrap_or(9), false, timed, &mut library);
    alone("circle", &circle(65_536), &wide_box());
    alone("strip", &strip(65_536), &wide_box());
    alone("hub with an empty cell", &hub(65_536), &small_box());
    let mut row = |name: &str, m: &Mesh, area: &Area, most: usize| time(name, m, area, rounds.unwrap_or(most), true, timed, &mut library);
    if has("--traps") || has("--full") {
        let sizes: &[usize] = if has("--full") { &[16_000, 65_536] } else { &[16_000] };
        for &n in sizes {
            row("trap of reuse: circle", &circle(n), &wide_box(), 1);
            row("trap of reuse: strip", &strip(n), &wide_box(), 1);
            row("trap of retries: hub", &hub(n), &small_box(), 1);
        }
    }
}

fn best_and_median(mut list: Vec<u64>, sites: usize) -> (f64, f64) {
    list.sort_unstable();
    (list[0] as f64 / sites as f64, list[list.len() / 2] as f64 / sites as f64)
}

/// Both sides in turn, or the library alone.
fn time(name: &str, m: &Mesh, area: &Area, rounds: usize, both: bool, [build, cut]: [&'static str; 2], library: &mut Library) {
    assert!(Facts::of(m).accepted(), "{name}");
    let n = m.count();
    let lent = rust::Lent::new(m);
    let (mut rust, mut builds, mut cuts) = ([(); 3].map(|_| Vec::new()), Vec::new(), Vec::new());
    for _ in 0..rounds.max(1) {
        if both {
            for (list, t) in rust.iter_mut().zip(rust_once(&lent, area)) {
                list.push(t);
            }
        }
        if library.has(build) {
            builds.push(library_once(m, area, build, library));
        }
        if library.has(cut) {
            cuts.push(cut_once(m, area, cut, library));
        }
    }
    print!("{name:28}{n:>8}");
    let of_rust = both.then(|| rust.map(|list| best_and_median(list, n)));
    match of_rust {
        Some([(centers, _), (whole, median), (freed, freed_median)]) => print!("{centers:>9.1}{whole:>10.1}{median:>10.1}{freed:>10.1}{freed_median:>10.1}"),
        None => print!("{:>9}{:>10}{:>10}{:>10}{:>10}", "-", "-", "-", "-", "-"),
    }
    for list in [builds, cuts] {
        if !list.is_empty() {
            let (b, d) = best_and_median(list, n);
            print!("{b:>10.1}{d:>10.1}");
            match of_rust {
                Some([_, (whole, _), (freed, _)]) => print!("{:>7.3}{:>7.3}", b / freed, b / whole),
                None => print!("{:>7}{:>7}", "-", "-"),
            }
        }
    }
    println!();
}

/// Nanoseconds of one build, taken by the server round the call itself.
fn library_once(m: &Mesh, area: &Area, build: &'static str, library: &mut Library) -> u64 {
    let lent = Slices::fresh(&Lengths::exact(m));
    asked(library, Call::new(build).gives_bits(0).area(area).mesh(m).lent_slices(&lent, &lent))
}

/// The same of a cutting.
fn cut_once(m: &Mesh, area: &Area, cut: &'static str, library: &mut Library) -> u64 {
    let lent = Slices::fresh(&Lengths::cutting(m));
    let call = Call::new(cut).gives_bits(0).area(area).mesh(m);
    asked(
        library,
        call.lent_indexes(&lent.work, &lent.work)
            .lent_floats(&lent.floats, &lent.floats)
            .lent_indexes(&lent.indexes, &lent.indexes)
            .lent_indexes(&lent.offsets, &lent.offsets)
            .gives(0),
    )
}

fn asked(library: &mut Library, call: Call) -> u64 {
    library.ask(call).unwrap_or_else(|e| {
        eprintln!("{e}");
        std::process::exit(1)
    })
}
