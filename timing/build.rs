//! Links the proved port: PIKECOWL_PORT names the folder of libtimed.a.

fn main() {
    println!("cargo:rerun-if-env-changed=PIKECOWL_PORT");
    let Ok(port) = std::env::var("PIKECOWL_PORT") else {
        panic!("PIKECOWL_PORT is not set: use ./pikecowl timing");
    };
    println!("cargo:rustc-link-search=native={port}");
    println!("cargo:rustc-link-lib=static=timed");
    println!("cargo:rerun-if-changed={port}/libtimed.a");
}
