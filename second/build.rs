//! Points the linker at the static library, under the feature `library` only.

use std::env;

fn main() {
    println!("cargo:rerun-if-env-changed=BAWNAROY_LIB");
    if env::var_os("CARGO_FEATURE_LIBRARY").is_none() {
        return;
    }
    let folder = env::var("BAWNAROY_LIB")
        .expect("the feature `library` needs BAWNAROY_LIB, the folder of libexports.a");
    println!("cargo:rustc-link-search=native={folder}");
    println!("cargo:rustc-link-lib=static=exports");
    println!("cargo:rerun-if-changed={folder}/libexports.a");
}
