//! Tells the linker where the verified library is. That it is linked at all is said in `src/ffi.rs`, so that the independent
//! implementation can be built and tested without it.

use std::env;
use std::path::PathBuf;

fn main() {
    let bench = PathBuf::from(env::var_os("CARGO_MANIFEST_DIR").expect("cargo gives the folder of the project"));
    let folder = bench.parent().expect("the project is inside the repository").join("crates/exports/out");
    println!("cargo:rerun-if-changed=build.rs");
    println!("cargo:rerun-if-changed={}", folder.join("libexports.a").display());
    println!("cargo:rustc-link-search=native={}", folder.display());
}
