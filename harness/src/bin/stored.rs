//! The stored answers (src/stored.rs has their form).
//!
//!     stored write FILE MESH..    makes the file from the named text meshes and fixed seeds, and tells what it has
//!     stored check FILE MESH..    whether the file is what `write` would make

use harness::{rust, stored, text};

fn main() {
    rust::quiet();
    let args: Vec<String> = std::env::args().skip(1).collect();
    let [verb, file, meshes @ ..] = &args[..] else { stop("stored write FILE MESH.. or stored check FILE MESH..") };
    let named: Vec<text::Input> = meshes
        .iter()
        .map(|f| text::read(&std::fs::read_to_string(f).unwrap_or_else(|e| stop(&format!("{f}: {e}")))).unwrap_or_else(|e| stop(&format!("{f}: {e}"))))
        .collect();
    let (bytes, table) = stored::write(&named).unwrap_or_else(|e| stop(&e));
    match verb.as_str() {
        "write" => {
            std::fs::write(file, &bytes).unwrap_or_else(|e| stop(&format!("{file}: {e}")));
            print!("{table}");
        }
        "check" => {
            if std::fs::read(file).unwrap_or_else(|e| stop(&format!("{file}: {e}"))) != bytes {
                stop(&format!("{file} is not what the Rust answers today: make it again with `stored write`"));
            }
            println!("{}stored answers: {file} is what the Rust answers", table.lines().next().map_or(String::new(), |l| format!("{l}\n")));
        }
        _ => stop("stored write or stored check"),
    }
}

fn stop(words: &str) -> ! {
    eprintln!("{words}");
    std::process::exit(1)
}
