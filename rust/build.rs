//! Links the proved library, built for this processor by the script `archive` beside this file. The variable ZABGURIN_FORM names another form of it that the script knows.
use std::path::PathBuf;
use std::{env, process};

fn main() {
    let here = PathBuf::from(env::var("CARGO_MANIFEST_DIR").expect("cargo sets it"));
    println!("cargo:rerun-if-env-changed=ZABGURIN_FORM");
    let form = env::var("ZABGURIN_FORM").unwrap_or_else(|_| "native".to_string());
    let folder = here.join("../target").join(&form);
    let archive = folder.join("libexports.a");
    println!("cargo:rerun-if-changed={}", archive.display());
    if !archive.is_file() {
        eprintln!("{} is not there: run `rust/archive {form}` first", archive.display());
        process::exit(1);
    }
    println!("cargo:rustc-link-search=native={}", folder.display());
    println!("cargo:rustc-link-lib=static=exports");
}
