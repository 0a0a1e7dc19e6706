// The proved run by locks, where `tools/build.sh locking` has made it: without it `bench locks` has the program alone to compare.
fn main() {
    let here = std::env::var("CARGO_MANIFEST_DIR").unwrap();
    let top = std::path::Path::new(&here).join("../target/staticlib");
    let archive = top.join("liblocking.a");
    println!("cargo:rerun-if-changed={}", archive.display());
    println!("cargo:rustc-check-cfg=cfg(locking)");
    if archive.exists() {
        println!("cargo:rustc-link-search=native={}", top.display());
        println!("cargo:rustc-link-lib=static=locking");
        println!("cargo:rustc-cfg=locking");
    }
}
