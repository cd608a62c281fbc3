//! Hands the linker the directory of the static library that the benchmark links.

fn main() {
    println!("cargo:rerun-if-changed=build.rs");
    println!("cargo:rerun-if-env-changed=BENCH_LIB_DIR");
    if let Ok(dir) = std::env::var("BENCH_LIB_DIR") {
        println!("cargo:rustc-link-search=native={dir}");
    }
}
