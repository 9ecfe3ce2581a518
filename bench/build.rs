//! Links the static library of the crate `capi`, which `tools/build.sh capi` writes.
//!
//! `run.sh` says by `NODERUN_STATICLIB` in which folder the library is, so that a repository which was moved is built anew.

use std::env;
use std::path::PathBuf;

fn main() {
    let folder = match env::var_os("NODERUN_STATICLIB") {
        Some(folder) => PathBuf::from(folder),
        None => PathBuf::from(env::var_os("CARGO_MANIFEST_DIR").expect("cargo sets it"))
            .join("../target/staticlib"),
    };
    println!("cargo:rerun-if-env-changed=NODERUN_STATICLIB");
    println!(
        "cargo:rerun-if-changed={}",
        folder.join("libcapi.a").display()
    );
    println!("cargo:rustc-link-search=native={}", folder.display());
    println!("cargo:rustc-link-lib=static=capi");
}
