// Links the archive that `rt lib` writes in crates/planner_c.
use std::path::Path;

fn main() {
    let root = std::env::var("CARGO_MANIFEST_DIR").unwrap();
    let folder = Path::new(&root).join("../../crates/planner_c/out");
    println!("cargo:rustc-link-search=native={}", folder.display());
    println!("cargo:rustc-link-lib=static=planner_c");
    println!("cargo:rerun-if-changed={}", folder.join("libplanner_c.a").display());
}
