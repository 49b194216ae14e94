//! Finds the archive that `tools/library` writes: in the folder that GUARD_STATICLIB names, or in
//! target/staticlib of the repository. Without it the crate builds too, with a warning, and its calls
//! panic.

use std::env;
use std::path::PathBuf;

fn main() {
    println!("cargo::rustc-check-cfg=cfg(guard_library)");
    println!("cargo::rerun-if-env-changed=GUARD_STATICLIB");
    let named = env::var_os("GUARD_STATICLIB").filter(|folder| !folder.is_empty());
    let folder = named.clone().map_or_else(
        || PathBuf::from(env!("CARGO_MANIFEST_DIR")).join("../../target/staticlib"),
        PathBuf::from,
    );
    let archive = folder.join("libhundlezoqa_c.a");
    println!("cargo::rerun-if-changed={}", archive.display());
    if archive.is_file() {
        println!("cargo::rustc-link-search=native={}", folder.display());
        println!("cargo::rustc-link-lib=static=hundlezoqa_c");
        println!("cargo::rustc-cfg=guard_library");
        println!("cargo::metadata=linked=1");
    } else if named.is_some() {
        println!("cargo::error=GUARD_STATICLIB: no {}", archive.display());
    } else {
        // No such file ever: the script runs at each build, and finds an archive of whatever age.
        println!("cargo::rerun-if-changed={}", folder.join("none").display());
        println!(
            "cargo::warning=no target/staticlib/libhundlezoqa_c.a: built without the proved library, every call \
             of it panics; `tools/library` makes it (in minutes), then build again"
        );
    }
}
