//! Tells where the library is: the folder that FILM_LIBRARY names, or target/film of this checkout, which tools/build-library makes.

use std::path::PathBuf;
use std::{env, process};

fn main() {
    println!("cargo:rerun-if-env-changed=FILM_LIBRARY");
    let here = PathBuf::from(env::var_os("CARGO_MANIFEST_DIR").expect("cargo sets this"));
    let named = env::var_os("FILM_LIBRARY").filter(|folder| !folder.is_empty());
    // a relative path is taken from here, whatever folder cargo and rustc are run in
    let folder = here.join(named.unwrap_or("../../target/film".into()));
    let archive = folder.join("libfilm.a");
    if !archive.exists() {
        eprintln!("{} is not there: run tools/build-library; FILM_LIBRARY names the folder of libfilm.a and libfilm.so", archive.display());
        process::exit(1);
    }
    println!("cargo:rerun-if-changed={}", archive.display());
    println!("cargo:rustc-link-search=native={}", folder.display());
}
