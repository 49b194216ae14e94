//! Sets guard_library where the crate `guard` was linked with the library.

fn main() {
    println!("cargo::rustc-check-cfg=cfg(guard_library)");
    println!("cargo::rerun-if-env-changed=DEP_HUNDLEZOQA_C_LINKED");
    if std::env::var_os("DEP_HUNDLEZOQA_C_LINKED").is_some() {
        println!("cargo::rustc-cfg=guard_library");
    }
}
