//! Compiles the peer, the program in C of the folder `peer`, into an archive.

use std::path::{Path, PathBuf};
use std::process::Command;

/// What the C compiler is asked for: the peer is timed as it would be shipped.
const FLAGS: [&str; 5] = ["-std=c11", "-O2", "-Wall", "-Wextra", "-Werror"];

fn run(command: &mut Command) {
    let status = command.status().unwrap_or_else(|failure| panic!("{command:?}: {failure}"));
    assert!(status.success(), "{command:?}: {status}");
}

/// The C files of a folder, by name.
fn sources(folder: &Path) -> Vec<PathBuf> {
    let entries = std::fs::read_dir(folder).expect("the peer's folder").flatten().map(|entry| entry.path());
    let mut sources: Vec<PathBuf> = entries.filter(|path| path.extension().is_some_and(|end| end == "c")).collect();
    sources.sort();
    sources
}

/// Compiles a file and gives its object.
fn compile(source: &Path, include: &Path, out: &Path) -> PathBuf {
    let object = out.join(source.with_extension("o").file_name().expect("a file's name"));
    run(Command::new("cc").args(FLAGS).arg("-I").arg(include).arg("-c").arg(source).arg("-o").arg(&object));
    object
}

fn main() {
    let root = Path::new(env!("CARGO_MANIFEST_DIR"));
    let (folder, include) = (root.join("peer"), root.join("../include"));
    let out = PathBuf::from(std::env::var_os("OUT_DIR").expect("a folder to build in"));
    let objects: Vec<PathBuf> = sources(&folder).iter().map(|source| compile(source, &include, &out)).collect();
    let archive = out.join("libpeer.a");
    // An archive that is there already would keep the objects of files that are gone.
    let _ = std::fs::remove_file(&archive);
    run(Command::new("ar").arg("crs").arg(&archive).args(&objects));
    println!("cargo:rustc-link-search=native={}", out.display());
    println!("cargo:rustc-link-lib=static=peer");
    for read in [folder, include] {
        println!("cargo:rerun-if-changed={}", read.display());
    }
}
