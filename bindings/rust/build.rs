//! Links the static library, and finds out which calls it has.
//!
//! The package is looked for, in this order: PINAREWHEMI_PACKAGE, a folder with include/ and lib/; what pkg-config knows;
//! what ./build made in this repository. A call that came later than the library was built is left out: the package's
//! header says which it has.

use std::env;
use std::fs;
use std::path::{Path, PathBuf};
use std::process::Command;

/// A sort of calls that an older library may lack, and the call that shows it.
const LATER: [(&str, &str); 5] = [
    ("has_pinwheel", "pw_fracture_pinwheel("),
    ("has_division", "pw_fracture_divided("),
    ("has_index", "pw_index_open("),
    ("has_salvage", "pw_salvage("),
    ("has_cif", "pw_cif_write("),
];

fn by_pkg_config() -> Option<PathBuf> {
    let out = Command::new("pkg-config").args(["--variable=prefix", "pinarewhemi"]).output().ok()?;
    let prefix = String::from_utf8(out.stdout).ok()?;
    (out.status.success() && !prefix.trim().is_empty()).then(|| PathBuf::from(prefix.trim()))
}

fn by_build() -> PathBuf {
    let root = Path::new(&env::var("CARGO_MANIFEST_DIR").unwrap()).join("../..");
    root.join("target/package").join(env::var("CARGO_CFG_TARGET_ARCH").unwrap())
}

fn main() {
    println!("cargo:rerun-if-changed=build.rs");
    println!("cargo:rerun-if-env-changed=PINAREWHEMI_PACKAGE");
    println!("cargo:rerun-if-env-changed=PKG_CONFIG_PATH");
    let package = match env::var("PINAREWHEMI_PACKAGE") {
        Ok(named) => PathBuf::from(named),
        Err(_) => by_pkg_config().unwrap_or_else(by_build),
    };
    let (header, library) = (package.join("include/pinarewhemi.h"), package.join("lib/libpinarewhemi.a"));
    for file in [&header, &library] {
        println!("cargo:rerun-if-changed={}", file.display());
        assert!(
            file.exists(),
            "{} is not there. ./build makes the package; PINAREWHEMI_PACKAGE names its folder",
            file.display()
        );
    }
    let declared = fs::read_to_string(&header).unwrap();
    for (has, call) in LATER {
        if declared.contains(call) {
            println!("cargo:rustc-cfg={has}");
        }
    }
    println!("cargo:rustc-env=PINAREWHEMI_HEADER={}", fs::canonicalize(&header).unwrap().display());
    println!("cargo:rustc-link-search=native={}", library.parent().unwrap().display());
    println!("cargo:rustc-link-lib=static=pinarewhemi");
}
