//! Writes the requests of `samples/` into a folder. The tests hold the shipped files against what this writes.

use std::{env, fs, process};

fn main() {
    let Some(folder) = env::args().nth(1) else {
        eprintln!("samples FOLDER: writes the sample requests into it");
        process::exit(2);
    };
    for (name, request) in compare::samples::all() {
        let file = format!("{folder}/{name}.request");
        fs::write(&file, request).unwrap_or_else(|error| panic!("{file}: {error}"));
    }
}
