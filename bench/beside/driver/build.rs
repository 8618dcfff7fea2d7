//! Links our static library, and the C heap that it stands on.

use std::env::var;

fn main() {
    let port = var("PORT_LIB_DIR").expect("PORT_LIB_DIR: the folder of libcontent_port.a");
    let kit = var("RATTLE_KIT_C").expect("RATTLE_KIT_C: the folder c of Rattle's kit");
    println!("cargo:rerun-if-env-changed=PORT_LIB_DIR");
    println!("cargo:rerun-if-env-changed=RATTLE_KIT_C");
    println!("cargo:rerun-if-changed={port}/libcontent_port.a");
    println!("cargo:rustc-link-search=native={port}");
    println!("cargo:rustc-link-search=native={kit}");
    println!("cargo:rustc-link-lib=static=content_port");
    println!("cargo:rustc-link-lib=static=libc_c");
}
