//! Finds the static library that `./library` makes, and links it.
use std::path::{Path, PathBuf};
use std::process::{exit, Command};
use std::{env, fs};

/// The directory that holds a libwejdarox.a for this machine, instead of the repository's own.
const OTHER: &str = "WEJDAROX_LIBRARY";

fn stop(why: &str) -> ! {
    println!("cargo::error={why}");
    exit(1)
}

fn variable(name: &str) -> String {
    env::var(name).unwrap_or_else(|_| stop(&format!("cargo did not set {name}")))
}

/// The archive that `./library` writes for this machine; where it is missing, that command is run.
fn own_archive() -> PathBuf {
    let root = Path::new(&variable("CARGO_MANIFEST_DIR")).join("../..");
    let archive = root.join("target/library/lib/libwejdarox.a");
    if variable("HOST") != variable("TARGET") {
        stop(&format!("this is built for another machine: {OTHER} may name a directory with a libwejdarox.a for it"));
    }
    if !archive.exists() {
        match Command::new(root.join("library")).output() {
            Ok(ran) if ran.status.success() => {}
            Ok(ran) => stop(String::from_utf8_lossy(&ran.stderr).lines().last().unwrap_or("./library failed: run it by itself to see why")),
            Err(_) => stop("target/library/lib/libwejdarox.a is missing, and ./library, which makes it, cannot be run"),
        }
    }
    archive
}

fn main() {
    println!("cargo::rerun-if-env-changed={OTHER}");
    let archive = match env::var_os(OTHER) {
        Some(directory) => Path::new(&directory).join("libwejdarox.a"),
        None => own_archive(),
    };
    println!("cargo::rerun-if-changed={}", archive.display());
    // a copy under a name of its own: the shared library, which lies beside the archive, is not what is to be linked
    let out = variable("OUT_DIR");
    if let Err(why) = fs::copy(&archive, Path::new(&out).join("libwejdarox_proved.a")) {
        stop(&format!("{} cannot be read: {why}", archive.display()));
    }
    println!("cargo::rustc-link-search=native={out}");
    println!("cargo::rustc-link-lib=static=wejdarox_proved");
}
