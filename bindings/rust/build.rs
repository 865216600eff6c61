//! Finds libvoronoi.a, in the folder VORONOI_LIB_DIR or where `./yelmuzard archive` puts it for the target, and says in a sentence what is
//! wrong with it and what to run: missing, no archive, for another processor, of another version. Where host and target are one, the version is
//! asked of the archive itself, by a program of one call. The header, of the folder VORONOI_INCLUDE_DIR, of `include` beside the archive's folder or of
//! the repository, says whether the library cuts, and what room that takes.

use std::path::{Path, PathBuf};
use std::process::Command;
use std::{env, fs};

fn main() {
    println!("cargo:rerun-if-env-changed=VORONOI_LIB_DIR");
    let target = env::var("CARGO_CFG_TARGET_ARCH").unwrap_or_default();
    let (made, word) = if target == "x86_64" { ("staticlib", "archive") } else { ("native", "archive --native") };
    // this crate is the folder bindings/rust of the repository
    let here = PathBuf::from(env::var_os("CARGO_MANIFEST_DIR").unwrap_or_default());
    let repository = here.ancestors().nth(2).unwrap_or(&here);
    // or of an installed copy, PREFIX/share/yelmuzard, whose library is in PREFIX/lib
    let own = if repository.join("installed").is_file() { repository.join("../../lib") } else { repository.join("target").join(made) };
    let folder = env::var_os("VORONOI_LIB_DIR").map_or(own, PathBuf::from);
    let folder = fs::canonicalize(&folder).unwrap_or(folder);
    let archive = folder.join("libvoronoi.a");
    println!("cargo:rerun-if-changed={}", archive.display());
    let help =
        format!("run ./yelmuzard {word} in the repository of Yelmuzard, or set VORONOI_LIB_DIR to a folder with libvoronoi.a for {target}");
    if let Err(wrong) = is_for(&archive, &target) {
        eprintln!("yelmuzard: {} {wrong}: {help}.", archive.display());
        std::process::exit(1);
    }
    if let Err(wrong) = is_of_this_version(&folder) {
        eprintln!("yelmuzard: {} {wrong}: {help}.", archive.display());
        std::process::exit(1);
    }
    println!("cargo:rustc-link-search=native={}", folder.display());
    println!("cargo:rustc-link-lib=static=voronoi");
    cutting(&folder, repository);
}

/// This crate's version as a number: 10000 times the first part, 100 times the second, and the third.
fn version() -> u32 {
    let part = |name| env::var(name).ok().and_then(|part| part.parse::<u32>().ok()).unwrap_or_default();
    10000 * part("CARGO_PKG_VERSION_MAJOR") + 100 * part("CARGO_PKG_VERSION_MINOR") + part("CARGO_PKG_VERSION_PATCH")
}

/// Whether the archive answers `voronoi_version` with this crate's version; else what is wrong. Lists that are lent to another version may be read
/// as something else.
fn is_of_this_version(folder: &Path) -> Result<(), String> {
    if env::var_os("HOST") != env::var_os("TARGET") {
        println!("cargo:warning=yelmuzard: the version of libvoronoi.a was not compared: it is for another machine than this one");
        return Ok(());
    }
    let made = PathBuf::from(env::var_os("OUT_DIR").unwrap_or_default());
    let (source, program) = (made.join("version.rs"), made.join("version"));
    let code = "extern \"C\" { fn voronoi_version() -> u32; }\nfn main() { print!(\"{}\", unsafe { voronoi_version() }); }\n";
    fs::write(&source, code).map_err(|e| format!("cannot be asked for its version ({e})"))?;
    let rustc = env::var_os("RUSTC").unwrap_or_else(|| "rustc".into());
    let linked = Command::new(rustc)
        .args(["--edition", "2021", "-l", "static=voronoi", "-L"])
        .arg(format!("native={}", folder.display()))
        .arg("-o")
        .args([&program, &source])
        .output()
        .map_err(|e| format!("cannot be asked for its version ({e})"))?;
    let said = String::from_utf8_lossy(&linked.stderr).into_owned();
    if !linked.status.success() {
        let old = said.contains("voronoi_version");
        return Err(if old { "is of a version before 0.23.0".to_string() } else { format!("cannot be linked ({said})") });
    }
    let answer = Command::new(&program).output().map_err(|e| format!("cannot be asked for its version ({e})"))?;
    match String::from_utf8_lossy(&answer.stdout).parse::<u32>() {
        Ok(number) if number == version() => Ok(()),
        Ok(number) => Err(format!(
            "is of version {}.{}.{}, and this crate of {}",
            number / 10000,
            number / 100 % 100,
            number % 100,
            env!("CARGO_PKG_VERSION")
        )),
        Err(_) => Err("does not say its version".to_string()),
    }
}

/// Turns on what needs a library that cuts, and writes the rooms of a cut as the header has them.
fn cutting(folder: &Path, repository: &Path) {
    println!("cargo:rerun-if-env-changed=VORONOI_INCLUDE_DIR");
    println!("cargo:rustc-check-cfg=cfg(voronoi_cut)");
    let folders = [
        env::var_os("VORONOI_INCLUDE_DIR").map(PathBuf::from),
        folder.parent().map(|f| f.join("include")),
        Some(repository.join("include")),
    ];
    let Some(header) = folders.into_iter().flatten().map(|f| f.join("voronoi.h")).find(|h| h.is_file()) else { return };
    println!("cargo:rerun-if-changed={}", header.display());
    let text = fs::read_to_string(&header).unwrap_or_default();
    let room = |name: &str| {
        let begin = format!("#define VORONOI_CUT_{name}_ROOM(T, H) ");
        let formula = text.lines().find_map(|line| line.strip_prefix(&begin))?.split("/*").next()?;
        let formula = formula.trim().replace("(size_t)(T)", "t").replace("(size_t)(H)", "h");
        let formula = formula.strip_prefix('(').and_then(|f| f.strip_suffix(')')).unwrap_or(&formula).to_string();
        Some(format!("pub fn cut_{}_room(t: usize, h: usize) -> usize {{\n    {formula}\n}}\n", name.to_lowercase()))
    };
    if let (Some(vertices), Some(indexes)) = (room("VERTEX"), room("INDEX")) {
        let made = PathBuf::from(env::var_os("OUT_DIR").unwrap_or_default());
        if fs::write(made.join("rooms.rs"), vertices + &indexes).is_ok() {
            println!("cargo:rustc-cfg=voronoi_cut");
        }
    }
}

/// Whether the archive's code is for this processor, by the name that Rust gives it; else what is wrong.
fn is_for(archive: &Path, target: &str) -> Result<(), String> {
    let bytes = fs::read(archive).map_err(|e| match e.kind() {
        std::io::ErrorKind::NotFound => "is not there".to_string(),
        _ => format!("cannot be read ({e})"),
    })?;
    let machine = machine(&bytes).ok_or("is no archive with ELF code in it")?;
    // ELF's numbers (e_machine) of the processors that Rust has on Linux, and the archive may be made for
    let names: [(u16, &str); 9] = [
        (0x03, "x86"),
        (0x08, "mips64"),
        (0x15, "powerpc64"),
        (0x16, "s390x"),
        (0x28, "arm"),
        (0x3e, "x86_64"),
        (0xb7, "aarch64"),
        (0xf3, "riscv64"),
        (0x102, "loongarch64"),
    ];
    match names.iter().find(|(number, _)| *number == machine) {
        Some((_, name)) if *name == target => Ok(()),
        Some((_, name)) => Err(format!("is for {name}, and this is built for {target}")),
        None => Err(format!("is for a processor that ELF numbers {machine}, and this is built for {target}")),
    }
}

/// ELF's number for the processor of the first object in an archive.
fn machine(archive: &[u8]) -> Option<u16> {
    let mut rest = archive.strip_prefix(b"!<arch>\n")?;
    // a member: 60 bytes of head, its size in decimal at 48 to 57, then so many bytes, to an even place
    while let Some(size) = rest.get(48..58) {
        let size: usize = std::str::from_utf8(size).ok()?.trim().parse().ok()?;
        let body = rest.get(60..60usize.checked_add(size)?)?;
        if let (Some(b"\x7fELF"), Some(&order), Some(&[a, b])) = (body.get(..4), body.get(5), body.get(18..20)) {
            return Some(if order == 2 { u16::from_be_bytes([a, b]) } else { u16::from_le_bytes([a, b]) });
        }
        rest = rest.get(60 + size + size % 2..)?;
    }
    None
}
