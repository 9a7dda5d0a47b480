//! Links the proved library: libembed.a in the folder that BALDUQEN_LIB names or, without it, where
//! `tools/build-library.sh` writes it.

use std::{env, fs};

const FOLDER: &str = "../target/staticlib";

fn main() {
    println!("cargo:rerun-if-changed=build.rs");
    println!("cargo:rerun-if-env-changed=BALDUQEN_LIB");

    let folder = env::var("BALDUQEN_LIB").unwrap_or(FOLDER.to_string());
    let folder = fs::canonicalize(&folder)
        .unwrap_or_else(|error| panic!("{folder}: {error}; 'tools/build-library.sh' makes it"));
    let library = folder.join("libembed.a");
    let name = library.display();
    assert!(
        library.is_file(),
        "{name} is not there; 'tools/build-library.sh' makes it"
    );
    println!("cargo:rerun-if-changed={}", library.display());
    println!("cargo:rustc-link-search=native={}", folder.display());
    println!("cargo:rustc-link-lib=static=embed");
}
