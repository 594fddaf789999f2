//! Links `libcalstore.a` from the folder that `CALSTORE_LIB` names, with the feature `library`.

use std::env;

fn main() {
    println!("cargo:rerun-if-changed=build.rs");
    println!("cargo:rerun-if-env-changed=CALSTORE_LIB");
    if env::var_os("CARGO_FEATURE_LIBRARY").is_none() {
        return;
    }
    let folder = env::var("CALSTORE_LIB")
        .expect("with the feature library, CALSTORE_LIB names the folder of libcalstore.a");
    println!("cargo:rerun-if-changed={folder}/libcalstore.a");
    println!("cargo:rustc-link-search=native={folder}");
    println!("cargo:rustc-link-lib=static=calstore");
}
