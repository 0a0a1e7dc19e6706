// The proved libraries, one archive a crate, as `tools/build.sh NAME` writes them.
fn main() {
    let here = std::env::var("CARGO_MANIFEST_DIR").unwrap();
    let top = std::path::Path::new(&here).join("../../target/staticlib");
    println!("cargo:rustc-link-search=native={}", top.display());
    for name in ["arbiter", "orders", "archive"] {
        let archive = top.join(format!("lib{name}.a"));
        println!("cargo:rerun-if-changed={}", archive.display());
        if !archive.exists() {
            println!("cargo:warning=there is no {}: run `tools/build.sh {name}` at the top of the repository", archive.display());
        }
        println!("cargo:rustc-link-lib=static={name}");
    }
}
