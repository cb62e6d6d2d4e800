//! Builds the archive of the proved register with `rt lib` in crates/exports, unless it is fresh, and links it.

use std::path::{Path, PathBuf};
use std::process::Command;
use std::time::SystemTime;
use std::{env, fs};

/// The newest change below a path.
fn newest(path: &Path) -> Option<SystemTime> {
    let about = fs::metadata(path).ok()?;
    if !about.is_dir() {
        return about.modified().ok();
    }
    fs::read_dir(path).ok()?.filter_map(|item| newest(&item.ok()?.path())).max()
}

/// The list of crates, and what each is made of: not `out`, in which `rt` keeps its own work.
fn sources(root: &Path) -> Vec<PathBuf> {
    let crates = fs::read_dir(root.join("crates")).into_iter().flatten().flatten().map(|item| item.path());
    let parts = crates.flat_map(|path| ["src", "specs", "proofs"].map(|part| path.join(part)));
    parts.filter(|path| path.exists()).chain([root.join("crates.txt")]).collect()
}

/// The archive is as new as all that it is made of.
fn fresh(root: &Path, archive: &Path) -> bool {
    let made = newest(archive);
    made.is_some() && made >= sources(root).iter().filter_map(|path| newest(path)).max()
}

fn main() {
    let here = PathBuf::from(env::var_os("CARGO_MANIFEST_DIR").expect("cargo names the crate's folder"));
    let root = here.parent().expect("the crate lies in the repository").to_path_buf();
    let archive = root.join("crates/exports/out/libexports.a");
    for path in sources(&root) {
        println!("cargo:rerun-if-changed={}", path.display());
    }
    println!("cargo:rerun-if-changed={}", archive.display());
    println!("cargo:rerun-if-changed=build.rs");
    if !fresh(&root, &archive) {
        let made = Command::new("rt").arg("lib").current_dir(root.join("crates/exports")).output();
        match made {
            Ok(done) if done.status.success() => {}
            Ok(done) => panic!("rt lib, in crates/exports: {}\n{}", done.status, String::from_utf8_lossy(&done.stdout)),
            Err(fault) => panic!("the archive is not fresh, and rt, which builds it, cannot be run: {fault}"),
        }
    }
    println!("cargo:rustc-link-search=native={}", root.join("crates/exports/out").display());
    println!("cargo:rustc-link-lib=static=exports");
}
