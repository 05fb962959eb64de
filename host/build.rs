//! Links the proved archive, which host/test.sh and host/bench put into target/staticlib.
use std::path::Path;

fn main() {
    let folder = Path::new(env!("CARGO_MANIFEST_DIR")).join("../target/staticlib");
    let archive = folder.join("libcram.a");
    if !archive.exists() {
        panic!("{} is missing: host/test.sh makes it, of what `rt lib` leaves in crates/cram_c/out", archive.display());
    }
    println!("cargo:rerun-if-changed={}", archive.display());
    println!("cargo:rustc-link-search=native={}", folder.display());
    println!("cargo:rustc-link-lib=static=cram");
}
