// Links the library's C functions: crates/probe/out/libprobe.a, or the libprobe.a in the folder that PROBE_LIB names.
use std::path::{Path, PathBuf};

fn main() {
    let here = std::env::var("CARGO_MANIFEST_DIR").unwrap();
    let made = std::env::var("PROBE_LIB").map_or_else(|_| Path::new(&here).join("../crates/probe/out"), PathBuf::from);
    println!("cargo:rustc-link-search=native={}", made.display());
    println!("cargo:rustc-link-lib=static=probe");
    println!("cargo:rerun-if-env-changed=PROBE_LIB");
    println!("cargo:rerun-if-changed={}", made.join("libprobe.a").display());
}
