//! Tells the compiler where the four source files are: VORONOI_SOURCE, or shared/docs/src beside the repository.

use std::path::PathBuf;

fn main() {
    let here = PathBuf::from(std::env::var("CARGO_MANIFEST_DIR").unwrap());
    let beside = here.join("../../../shared/docs/src");
    let folder = std::env::var("VORONOI_SOURCE").map(PathBuf::from).unwrap_or(beside);
    println!("cargo:rerun-if-env-changed=VORONOI_SOURCE");
    for file in ["utils.rs", "bounding_box.rs", "iterator.rs", "cell_builder.rs"] {
        let path = folder.join(file);
        println!("cargo:rerun-if-changed={}", path.display());
        if !path.is_file() {
            panic!("{} is not there: set VORONOI_SOURCE to the folder of the four source files", path.display());
        }
    }
    println!("cargo:rustc-env=VORONOI_SOURCE={}", folder.canonicalize().unwrap().display());
}
