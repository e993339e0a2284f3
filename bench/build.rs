//! Links the proved crates, where they are asked for. `build_proved.sh` builds them.

use std::env;

fn main() {
    println!("cargo::rerun-if-changed=build.rs");
    if env::var_os("CARGO_FEATURE_PROVED").is_some() {
        let bench = env::var("CARGO_MANIFEST_DIR").expect("cargo tells the folder");
        let folder = format!("{bench}/target/proved");
        println!("cargo::rerun-if-changed={folder}/libbench_c.a");
        println!("cargo::rustc-link-search=native={folder}");
        println!("cargo::rustc-link-lib=static=bench_c");
        println!("cargo::rustc-link-lib=static=libc_c");
    }
}
