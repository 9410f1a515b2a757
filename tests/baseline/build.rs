//! Compiles the C++ baselines with g++ -O3.

use std::env;
use std::path::{Path, PathBuf};
use std::process::Command;

fn run(command: &mut Command) {
    let status = command.status().unwrap_or_else(|e| panic!("{command:?}: {e}"));
    assert!(status.success(), "{command:?}: {status}");
}

fn main() {
    let out = PathBuf::from(env::var("OUT_DIR").unwrap());
    let source = Path::new("baseline.cpp");
    println!("cargo:rerun-if-changed={}", source.display());
    println!("cargo:rerun-if-changed=build.rs");
    let (object, archive) = (out.join("baseline.o"), out.join("libbaseline.a"));
    let _ = std::fs::remove_file(&archive);
    run(Command::new("g++")
        .args(["-O3", "-std=c++17", "-Wall", "-Wextra", "-fPIC", "-fno-exceptions", "-fno-rtti", "-c"])
        .arg(source)
        .arg("-o")
        .arg(&object));
    run(Command::new("ar").arg("crs").arg(&archive).arg(&object));
    println!("cargo:rustc-link-search=native={}", out.display());
    println!("cargo:rustc-link-lib=static=baseline");
}
