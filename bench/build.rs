// Links the archive of the library, and compiles the plain reader that it is compared with. The
// archive is the one in the folder that PULSEQ_ARCHIVE names, or else the one built in the
// project's `target/staticlib`.

use std::path::{Path, PathBuf};
use std::process::{exit, Command};

/// The plain reader's source.
const PLAIN: &str = "src/plain.c";

/// Tells cargo what to link, and when to do so anew.
fn main() {
    let folder = archive_folder();
    let archive = folder.join("libpulseq.a");
    println!("cargo:rerun-if-env-changed=PULSEQ_ARCHIVE");
    println!("cargo:rerun-if-changed={}", archive.display());
    println!("cargo:rerun-if-changed={PLAIN}");
    if !archive.exists() {
        eprintln!("there is no archive {}", archive.display());
        exit(1);
    }
    println!("cargo:rustc-link-search=native={}", folder.display());
    println!("cargo:rustc-link-lib=static=pulseq");
    println!("cargo:rustc-link-arg={}", compiled_plain_reader().display());
}

/// The folder that holds the archive.
fn archive_folder() -> PathBuf {
    match std::env::var_os("PULSEQ_ARCHIVE") {
        Some(folder) if !folder.is_empty() => PathBuf::from(folder),
        _ => Path::new(&variable("CARGO_MANIFEST_DIR")).join("../target/staticlib"),
    }
}

/// Compiles the plain reader as most programs are compiled, and answers its object file.
fn compiled_plain_reader() -> PathBuf {
    let object = Path::new(&variable("OUT_DIR")).join("plain.o");
    let status = Command::new("cc")
        .args(["-std=c11", "-O2", "-Wall", "-Wextra", "-Werror", "-c", PLAIN, "-o"])
        .arg(&object)
        .status();
    if !status.is_ok_and(|status| status.success()) {
        eprintln!("cc does not compile {PLAIN}");
        exit(1);
    }
    object
}

/// A variable that cargo sets.
fn variable(name: &str) -> String {
    std::env::var(name).expect("cargo sets the variables of a build script")
}
