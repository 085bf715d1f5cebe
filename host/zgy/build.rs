// Links the archive that `rt lib` builds in crates/zgy_c from the proved crates.
use std::path::Path;

fn main() {
    let folder = Path::new(env!("CARGO_MANIFEST_DIR")).join("../../crates/zgy_c/out");
    let archive = folder.join("libzgy_c.a");
    println!("cargo:rerun-if-changed={}", archive.display());
    if !archive.exists() {
        eprintln!("there is no {}: run `rt lib` in crates/zgy_c, or host/check", archive.display());
        std::process::exit(1);
    }
    println!("cargo:rustc-link-search=native={}", folder.display());
    println!("cargo:rustc-link-lib=static=zgy_c");
}
