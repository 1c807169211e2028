//! Links the proved functions, which `make entries` writes.

use std::path::Path;

fn main() {
    let folder = Path::new(env!("CARGO_MANIFEST_DIR")).join("../../target/staticlib");
    println!("cargo:rustc-link-search=native={}", folder.display());
    for name in ["test_tree", "test_deck", "planner", "replay", "display"] {
        let library = folder.join(format!("lib{name}.a"));
        assert!(
            library.exists(),
            "run `make entries` in the repository first: no lib{name}.a"
        );
        println!("cargo:rerun-if-changed={}", library.display());
        println!("cargo:rustc-link-lib=static={name}");
    }
}
