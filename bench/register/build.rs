//! Compiles the C++ tables that are installed, with g++ -O3, and says by a cfg which they are.

use std::path::{Path, PathBuf};
use std::process::Command;
use std::{env, fs};

fn ran(program: &str, words: &[&str]) -> bool {
    Command::new(program).args(words).output().is_ok_and(|done| done.status.success())
}

/// Compiles `cpp/NAME.cpp` and links it, if its table's header is there.
fn table(out: &Path, name: &str) {
    println!("cargo:rustc-check-cfg=cfg({name})");
    println!("cargo:rerun-if-changed=cpp/{name}.cpp");
    let (object, archive) = (out.join(format!("{name}.o")), out.join(format!("libbench_{name}.a")));
    let (object, archive) = (object.to_string_lossy(), archive.to_string_lossy());
    let source = format!("cpp/{name}.cpp");
    let _ = fs::remove_file(&*archive);
    if ran("g++", &["-std=c++17", "-O3", "-fPIC", "-c", &source, "-o", &object]) && ran("ar", &["rcs", &archive, &object]) {
        println!("cargo:rustc-cfg={name}");
        println!("cargo:rustc-link-lib=static=bench_{name}");
        println!("cargo:rustc-link-lib=stdc++");
    } else {
        println!("cargo:warning={name} is left out: g++ or the table's header is not installed");
    }
}

fn main() {
    let out = PathBuf::from(env::var_os("OUT_DIR").expect("cargo names the folder"));
    println!("cargo:rustc-link-search=native={}", out.display());
    println!("cargo:rerun-if-changed=build.rs");
    println!("cargo:rerun-if-changed=cpp/batches.hpp");
    table(&out, "robin");
    table(&out, "flat");
}
