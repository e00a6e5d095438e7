//! Links liblazbendix.a: from the folder that LAZBENDIX_OUT names; from native/MACHINE, where a packaged crate has it; or
//! from library/out, where library/build.sh makes it.

use std::env;
use std::path::PathBuf;

fn main() {
    println!("cargo:rerun-if-env-changed=LAZBENDIX_OUT");
    let here = PathBuf::from(env::var_os("CARGO_MANIFEST_DIR").expect("cargo tells it"));
    let machine = env::var("CARGO_CFG_TARGET_ARCH").expect("cargo tells it");
    let folder = match env::var_os("LAZBENDIX_OUT") {
        Some(named) => PathBuf::from(named),
        None if here.join("native").is_dir() => here.join("native").join(&machine),
        None => here.join("../out"),
    };
    let archive = folder.join("liblazbendix.a");
    if !archive.is_file() {
        println!("cargo:warning=lazbendix has no library for {machine} at {}", folder.display());
    }
    println!("cargo:rustc-link-search=native={}", folder.display());
    println!("cargo:rustc-link-lib=static=lazbendix");
    println!("cargo:rerun-if-changed={}", archive.display());
}
