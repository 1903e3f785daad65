//! Links the static libraries that `rt lib` writes in crates/bench_server_c and crates/bench_cache_c, under the names of the libraries that they export.

use std::{env, fs};

fn main() {
    let crates = format!("{}/../crates", env::var("CARGO_MANIFEST_DIR").unwrap());
    let folder = env::var("OUT_DIR").unwrap();
    println!("cargo:rustc-link-search=native={folder}");
    for name in ["bench_server", "bench_cache"] {
        let from = format!("{crates}/{name}_c/out/lib{name}_c.a");
        fs::copy(&from, format!("{folder}/lib{name}.a")).unwrap_or_else(|e| panic!("{from}: {e}; run rt lib in crates/{name}_c"));
        println!("cargo:rustc-link-lib=static={name}");
        println!("cargo:rerun-if-changed={from}");
    }
}
