// Links the archive of the library where it has been built; without it the modes that call the
// library are left out.

use std::path::Path;

// Tells cargo where the archive is, and sets `library` if it is there.
fn main() {
    let root = std::env::var("CARGO_MANIFEST_DIR").expect("cargo names the crate's folder");
    let folder = Path::new(&root).join("../target/staticlib");
    let archive = folder.join("libpulseq.a");
    println!("cargo:rustc-check-cfg=cfg(library)");
    println!("cargo:rerun-if-changed={}", archive.display());
    if archive.exists() {
        println!("cargo:rustc-link-search=native={}", folder.display());
        println!("cargo:rustc-link-lib=static=pulseq");
        println!("cargo:rustc-cfg=library");
    }
}
