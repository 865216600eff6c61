//! What src/sys.rs declares is what include/voronoi.h declares.

mod common;
use common::*;

/// The parameters of a call of the header, as Rust writes them: `const double *sites` is `sites: *const f64`.
fn in_the_header(name: &str) -> String {
    let header = text("include/voronoi.h");
    let begin = format!("\nuint32_t {name}(");
    let rest = header.split(&begin).nth(1).unwrap_or_else(|| panic!("the header has no {name}"));
    let parameters = rest.split(");").next().unwrap().split(',').map(|parameter| {
        let (constant, rest) = match parameter.trim().strip_prefix("const ") {
            Some(rest) => (true, rest),
            None => (false, parameter.trim()),
        };
        let (kind, name) = rest.split_once(' ').unwrap();
        let kind = match kind {
            "double" => "f64",
            "uint32_t" => "u32",
            "size_t" => "usize",
            "uint64_t" => "u64",
            "uint8_t" => "u8",
            other => panic!("no type for {other}"),
        };
        match (name.strip_prefix('*'), constant) {
            (Some(name), true) => format!("{name}: *const {kind}"),
            (Some(name), false) => format!("{name}: *mut {kind}"),
            (None, _) => format!("{name}: {kind}"),
        }
    });
    parameters.collect::<Vec<_>>().join(", ")
}

#[test]
fn every_call() {
    let sys = text("bindings/rust/src/sys.rs");
    let declared: Vec<&str> = sys.split("\n    fn ").skip(1).map(|d| d.split(");").next().unwrap()).collect();
    assert!(declared.len() >= 9);
    let calls = text("bindings/rust/src/calls.rs");
    let cuts = text("include/voronoi.h").contains("#define VORONOI_CUT_VERTEX_ROOM");
    for call in declared {
        let (name, parameters) = call.split_once('(').unwrap();
        if name.starts_with("voronoi_cut") && !cuts {
            continue; // declared for a library that cuts
        }
        let parameters = parameters.split_whitespace().collect::<Vec<_>>().join(" ");
        assert_eq!(parameters, in_the_header(name), "{name}");
        // one expression that names it: it is called there, or handed to the one that calls it
        let whole = format!("sys::{name}");
        let named = calls.match_indices(&whole).filter(|(at, found)| !calls[at + found.len()..].starts_with('_'));
        assert_eq!(named.count(), 1, "{name}");
    }
    // one call in each `unsafe`
    let called = calls
        .split("sys::voronoi_")
        .skip(1)
        .filter(|rest| rest.trim_start_matches(|c: char| c.is_alphanumeric() || c == '_').starts_with('('));
    assert_eq!(calls.matches("unsafe {").count(), called.count() + calls.matches(" call(").count());
}

#[test]
fn every_number() {
    let sys = text("bindings/rust/src/sys.rs");
    let here = |name: &str| -> u32 {
        let begin = format!("pub const {name}: usize = ");
        sys.split(&begin).nth(1).unwrap().split(';').next().unwrap().parse().unwrap()
    };
    for name in [
        "COUNTS",
        "COUNT_VERTICES",
        "COUNT_OWNERS",
        "COUNT_LOST",
        "MOST_SITES",
        "MOST_TRIANGLES",
        "AUDIT_BITS",
        "AUDIT_SOUND",
        "AUDIT_RING",
        "AUDIT_OUTSIDE",
        "AUDIT_NEARER",
        "AUDIT_TOTAL",
        "CERTIFY_BITS",
        "CERTIFY_SOUND",
        "CERTIFY_OUTSIDE",
        "CERTIFY_SIDE",
        "CERTIFY_BORDER",
        "CERTIFY_NEARER",
        "WHY_SITE",
        "WHY_TRIANGLE",
        "WHY_HALFEDGE",
        "WHY_HULL_PLACE",
        "WHY_EDGE",
    ] {
        assert_eq!(here(name), defined(&format!("VORONOI_{name}")), "{name}");
    }
    let header = text("include/voronoi.h");
    assert!(header.contains("#define VORONOI_EMPTY UINT32_C(4294967295)"));
    // the rooms of src/voronoi.rs
    assert!(header.contains("#define VORONOI_VERTEX_ROOM(T, H) (7 * (size_t)(T) + 5 * (size_t)(H) + 4)"));
    assert!(header.contains("#define VORONOI_INDEX_ROOM(T, H) (12 * (size_t)(T) + 8 * (size_t)(H) + 4)"));
    // the room of src/sys.rs
    assert!(header.contains("#define VORONOI_CERTIFY_ROOM(N, M) (3 * (size_t)(M) + 2 * (size_t)(N) + 64)"));
    // the room of src/wkb.rs
    assert!(header.contains("#define VORONOI_WKB_ROOM(n) ((n) < 3 ? 9 : 29 + 16 * (size_t)(n))"));
    assert!(text("VERSION").trim() == env!("CARGO_PKG_VERSION"), "the crate has the version of the library");
}
