//! Links liblaunchramp.a, from the folder whose whole path LAUNCHRAMP_LIB_DIR holds, otherwise from
//! ../target/staticlib, where `tools/archive` writes it. Where it can't be linked this says
//! so and the crate still compiles: `cargo check` works everywhere.
use std::env;
use std::path::{Path, PathBuf};

const FOLDER: &str = "LAUNCHRAMP_LIB_DIR";

fn folder() -> PathBuf {
    match env::var_os(FOLDER) {
        Some(named) => PathBuf::from(named),
        None => Path::new(env!("CARGO_MANIFEST_DIR")).join("../target/staticlib"),
    }
}

fn builds_for(part: &str, wanted: &str) -> bool {
    env::var(part).as_deref() == Ok(wanted)
}

fn main() {
    let folder = folder();
    let archive = folder.join("liblaunchramp.a");
    println!("cargo:rerun-if-env-changed={FOLDER}");
    println!("cargo:rerun-if-changed={}", archive.display());
    if !builds_for("CARGO_CFG_TARGET_ARCH", "x86_64") || !builds_for("CARGO_CFG_TARGET_OS", "linux")
    {
        cannot_link("liblaunchramp.a is for x86-64 Linux");
    } else if !archive.is_file() {
        cannot_link(&format!("there is no {}", archive.display()));
    } else {
        println!("cargo:rustc-link-search=native={}", folder.display());
        println!("cargo:rustc-link-lib=static=launchramp");
    }
}

fn cannot_link(why: &str) {
    println!("cargo:warning=programs and tests can't be linked here: {why}");
}
