//! Links libcapi.a from the folder that ROVIGNESC_LIB names.
use std::env;

fn main() {
    let folder = env::var("ROVIGNESC_LIB").expect("ROVIGNESC_LIB is the folder of libcapi.a");
    println!("cargo:rerun-if-env-changed=ROVIGNESC_LIB");
    println!("cargo:rerun-if-changed={folder}/libcapi.a");
    println!("cargo:rustc-link-search=native={folder}");
    println!("cargo:rustc-link-lib=static=capi");
}
