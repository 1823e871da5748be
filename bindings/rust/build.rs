//! Links the library that stands beside this file, else the one in the folder that
//! DAACHORSE_LIBRARY_FOLDER names.

use std::{env, path::Path};

fn main() {
    println!("cargo:rerun-if-env-changed=DAACHORSE_LIBRARY_FOLDER");
    let beside = env::var("CARGO_MANIFEST_DIR").expect("cargo names the folder of the crate");
    if Path::new(&beside).join("libdaachorse.a").exists() {
        println!("cargo:rustc-link-search=native={beside}");
        println!("cargo:rustc-link-lib=static=daachorse");
        return;
    }
    let folder = env::var("DAACHORSE_LIBRARY_FOLDER")
        .expect("DAACHORSE_LIBRARY_FOLDER names the folder of libdaachorse.so");
    println!("cargo:rustc-link-search=native={folder}");
    println!("cargo:rustc-link-lib=dylib=daachorse");
    println!("cargo:rustc-link-arg=-Wl,-rpath,{folder}");
}
