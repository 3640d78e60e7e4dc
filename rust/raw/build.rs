//! Links the boundary archives that `rt lib` leaves in crates/just_line/out and crates/just_c/out.

fn main() {
    let crates = std::path::Path::new(env!("CARGO_MANIFEST_DIR")).join("../../crates");
    for archive in ["just_line", "just_c"] {
        let folder = crates.join(archive).join("out");
        println!("cargo:rustc-link-search=native={}", folder.display());
        println!("cargo:rustc-link-lib=static={archive}");
        println!("cargo:rerun-if-changed={}", folder.join(format!("lib{archive}.a")).display());
    }
}
