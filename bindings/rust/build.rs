//! Links the proved library: libskriduhol_c.a in the folder that SKRIDUHOL_LIB names, without it in the repository's
//! target/staticlib, where `tools/build skriduhol_c` writes it.
use std::{env, path::PathBuf};

fn main() {
    println!("cargo:rerun-if-env-changed=SKRIDUHOL_LIB");
    let here = env::var("CARGO_MANIFEST_DIR").expect("cargo names the package's folder");
    let built = env::var("SKRIDUHOL_LIB").map_or_else(
        |_| PathBuf::from(here).join("../../target/staticlib"),
        PathBuf::from,
    );
    println!("cargo:rustc-link-search=native={}", built.display());
    println!("cargo:rustc-link-lib=static=skriduhol_c");
    println!(
        "cargo:rerun-if-changed={}",
        built.join("libskriduhol_c.a").display()
    );
}
