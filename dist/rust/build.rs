//! Links the library for the target: `libdillmonth.a` of the folder that the variable DILLMONTH_LIB names, of this crate's `lib/`, of a `dist/` or, in a
//! checkout, of what `bindings/build` made.

use std::env;
use std::path::{Path, PathBuf};

/// The folders of libraries by architecture, system and what goes by the C library.
const FOLDERS: [(&str, &str, &str, &str); 4] = [
    ("x86_64", "linux", "gnu", "x86_64-linux-gnu"),
    ("aarch64", "linux", "gnu", "aarch64-linux-gnu"),
    ("x86_64", "windows", "gnu", "x86_64-w64-mingw32"),
    ("aarch64", "macos", "", "arm64-apple-macos"),
];

fn folder() -> Option<&'static str> {
    let of = |name| env::var(name).unwrap_or_default();
    let (arch, os, env) = (of("CARGO_CFG_TARGET_ARCH"), of("CARGO_CFG_TARGET_OS"), of("CARGO_CFG_TARGET_ENV"));
    FOLDERS.iter().find(|row| row.0 == arch && row.1 == os && row.2 == env).map(|row| row.3)
}

fn main() {
    println!("cargo:rerun-if-env-changed=DILLMONTH_LIB");
    let here = PathBuf::from(env::var("CARGO_MANIFEST_DIR").expect("cargo tells where the crate is"));
    let target = env::var("TARGET").unwrap_or_default();
    let mut places: Vec<PathBuf> = env::var("DILLMONTH_LIB").iter().map(PathBuf::from).collect();
    if let Some(folder) = folder() {
        places.extend([here.join("lib").join(folder), here.join("../lib").join(folder)]);
        if folder == "x86_64-linux-gnu" {
            places.push(here.join("../out"));
        }
    }
    let has = |place: &&PathBuf| Path::new(place).join("libdillmonth.a").is_file();
    match places.iter().find(has) {
        Some(place) => {
            println!("cargo:rerun-if-changed={}", place.join("libdillmonth.a").display());
            println!("cargo:rustc-link-search=native={}", place.display());
            println!("cargo:rustc-link-lib=static=dillmonth");
        }
        None => panic!("there is no libdillmonth.a for {target}: name its folder in DILLMONTH_LIB"),
    }
}
