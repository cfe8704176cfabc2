// Links the proved static libraries that `tools/archives` makes: the viewer's into the library, those of the wrappers into the test that
// names them.
use std::path::Path;

fn main() {
    let crates = Path::new(env!("CARGO_MANIFEST_DIR")).join("../crates");
    println!("cargo:rustc-link-lib=static=viewer");
    for name in ["viewer", "bridge_texts", "bridge_places"] {
        let folder = crates.join(name).join("out");
        let archive = folder.join(format!("lib{name}.a"));
        println!("cargo:rustc-link-search=native={}", folder.display());
        println!("cargo:rerun-if-changed={}", archive.display());
    }
}
