//! Finds libexports.a: in VOBZEILE_LIB_DIR, else in the repository's target/staticlib, else by bench/library.

use std::env;
use std::fs;
use std::path::{Path, PathBuf};
use std::process::{Command, exit};

const ARCHIVE: &str = "libexports.a";

/// What the archive must define.
const NAMES: [&str; 11] = [
    "vobzeile_connected",
    "vobzeile_counts",
    "vobzeile_dots",
    "vobzeile_list_points",
    "vobzeile_parts",
    "vobzeile_read",
    "vobzeile_scales",
    "vobzeile_solve",
    "vobzeile_sqrt",
    "vobzeile_work_length",
    "vobzeile_write",
];

fn fail(message: &str) -> ! {
    eprintln!("vobzeile: {message}");
    exit(1)
}

/// The folder of the archive, from the environment, or the repository's.
fn find() -> PathBuf {
    if let Some(dir) = env::var_os("VOBZEILE_LIB_DIR") {
        let dir = PathBuf::from(dir);
        if !dir.join(ARCHIVE).is_file() {
            fail(&format!(
                "VOBZEILE_LIB_DIR is {}, which has no {ARCHIVE}",
                dir.display()
            ));
        }
        return dir;
    }
    let package = PathBuf::from(env::var_os("CARGO_MANIFEST_DIR").expect("cargo sets it"));
    let root = package.join("../..");
    let dir = root.join("target/staticlib");
    if !dir.join(ARCHIVE).is_file() {
        prove(&root);
    }
    if !dir.join(ARCHIVE).is_file() {
        fail(&format!("bench/library left no {ARCHIVE}"));
    }
    dir
}

/// Runs bench/library, which has `rt` make the archive.
fn prove(root: &Path) {
    let wanted = format!(
        "no {ARCHIVE}: run bench/library at the root of the repository, or set \
         VOBZEILE_LIB_DIR to the folder that has it"
    );
    if !root.join("crates.txt").is_file() {
        fail(&wanted);
    }
    let status = Command::new(root.join("bench/library")).status();
    match status {
        Ok(status) if status.success() => {}
        Ok(status) => fail(&format!("bench/library failed ({status})")),
        Err(error) => fail(&format!(
            "{wanted} (bench/library could not be run from here: {error})"
        )),
    }
}

fn main() {
    println!("cargo:rerun-if-changed=build.rs");
    println!("cargo:rerun-if-env-changed=VOBZEILE_LIB_DIR");
    let arch = env::var("CARGO_CFG_TARGET_ARCH").unwrap_or_default();
    if arch != "x86_64" {
        fail(&format!("{ARCHIVE} is for x86-64, the target is {arch}"));
    }
    let dir = find();
    let archive = dir.join(ARCHIVE);
    println!("cargo:rerun-if-changed={}", archive.display());
    let bytes =
        fs::read(&archive).unwrap_or_else(|error| fail(&format!("{}: {error}", archive.display())));
    for name in NAMES {
        let name = name.as_bytes();
        if !bytes.windows(name.len()).any(|window| window == name) {
            fail(&format!(
                "{} lacks {}: build it again with bench/library",
                archive.display(),
                String::from_utf8_lossy(name)
            ));
        }
    }
    println!("cargo:rustc-link-search=native={}", dir.display());
    println!("cargo:rustc-link-lib=static=exports");
}
