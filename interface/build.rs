//! Links libbench.a, where build.sh puts it.
use std::path::PathBuf;

fn main() {
    let manifest = PathBuf::from(std::env::var("CARGO_MANIFEST_DIR").unwrap());
    // BENCH_ARCHIVE names another folder with a libbench.a, for trying the comparison on a stand-in.
    println!("cargo:rerun-if-env-changed=BENCH_ARCHIVE");
    let folder = manifest.join(std::env::var("BENCH_ARCHIVE").unwrap_or_else(|_| "../target/staticlib".to_string()));
    let archive = folder.join("libbench.a");
    println!("cargo:rerun-if-changed={}", archive.display());
    println!("cargo:rustc-link-search=native={}", folder.display());
    if archive.exists() {
        println!("cargo:rustc-link-lib=static=bench");
    } else {
        println!("cargo:warning={} is missing: only `cargo test --lib` in tests/ can be run", archive.display());
    }
}
