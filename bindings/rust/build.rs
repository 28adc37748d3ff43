//! Finds the archive of the library: in the folder that PULLDOWN_CMARK_LIB_DIR names, in `native` of this crate, or in the place where
//! `make lib` puts it in a clone of the repository.
use std::path::PathBuf;
use std::{env, process};

fn main() {
    println!("cargo:rerun-if-env-changed=PULLDOWN_CMARK_LIB_DIR");
    let here = PathBuf::from(
        env::var_os("CARGO_MANIFEST_DIR").expect("cargo names the folder of the crate"),
    );
    let named = env::var_os("PULLDOWN_CMARK_LIB_DIR").map(PathBuf::from);
    let places = match named {
        Some(folder) => vec![folder],
        None => vec![here.join("native"), here.join("../../bin/lib")],
    };
    let Some(found) = places
        .iter()
        .find(|it| it.join("libpulldown_cmark.a").is_file())
    else {
        eprintln!("there is no libpulldown_cmark.a in {places:?}: run make lib at the top of the repository, or set PULLDOWN_CMARK_LIB_DIR");
        process::exit(1);
    };
    println!(
        "cargo:rerun-if-changed={}",
        found.join("libpulldown_cmark.a").display()
    );
    println!("cargo:rustc-link-search=native={}", found.display());
    println!("cargo:rustc-link-lib=static=pulldown_cmark");
}
