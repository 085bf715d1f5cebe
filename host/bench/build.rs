// Finds segyio's library, which is optional: with it the comparison is built in (cfg segyio).
use std::env;
use std::path::PathBuf;

fn main() {
    println!("cargo:rustc-check-cfg=cfg(segyio)");
    println!("cargo:rerun-if-changed=build.rs");
    println!("cargo:rerun-if-env-changed=SEGYIO_LIB");
    let usual = ["/usr/lib/x86_64-linux-gnu", "/usr/lib/aarch64-linux-gnu", "/usr/lib64", "/usr/lib", "/usr/local/lib"];
    let folders = env::var_os("SEGYIO_LIB").map(PathBuf::from).into_iter().chain(usual.map(PathBuf::from));
    for folder in folders {
        for (file, kind) in [("libsegyio.a", "static"), ("libsegyio.so", "dylib")] {
            if folder.join(file).exists() {
                println!("cargo:rustc-cfg=segyio");
                println!("cargo:rustc-link-search=native={}", folder.display());
                println!("cargo:rustc-link-lib={kind}=segyio");
                return;
            }
        }
    }
}
