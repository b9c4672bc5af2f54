//! Links the static library into the binaries that call it. PLUME_LIBRARY names another file to link instead of the one that
//! `tools/library` builds.
fn main() {
    let root = std::env::var("CARGO_MANIFEST_DIR").expect("cargo sets it");
    let library = std::env::var("PLUME_LIBRARY")
        .unwrap_or_else(|_| format!("{root}/../crates/plume_c/out/libplume_c.a"));
    for binary in ["calls", "doubles"] {
        println!("cargo:rustc-link-arg-bin={binary}={library}");
    }
    println!("cargo:rerun-if-changed={library}");
    println!("cargo:rerun-if-env-changed=PLUME_LIBRARY");
}
