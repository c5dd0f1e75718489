//! Links the archive that `rust/native` makes of `crates/`, which makes it again where `crates/` changed; and hands the records that
//! `crates/` declares to src/declared.rs, which holds them to those of this crate.

use std::path::{Path, PathBuf};
use std::process::Command;
use std::{env, fs};

/// What stands in a folder, in order.
fn entries(folder: &Path) -> Vec<PathBuf> {
    let mut entries: Vec<PathBuf> =
        fs::read_dir(folder).unwrap().map(|entry| entry.unwrap().path()).collect();
    entries.sort();
    entries
}

/// All files of Rattle code below a folder, in order.
fn sources(folder: &Path, found: &mut Vec<PathBuf>) {
    for path in entries(folder) {
        if path.is_dir() {
            sources(&path, found);
        } else if path.extension().is_some_and(|e| e == "rt") {
            found.push(path);
        }
    }
}

/// The `#[repr(C)]` structs of these files, word for word but for what they derive: their text is Rust, too.
fn records(files: &[PathBuf]) -> String {
    let mut text = String::new();
    for file in files {
        let code = fs::read_to_string(file).unwrap();
        for declared in code.split("#[repr(C)]\n").skip(1) {
            let end = declared.find("\n}\n").unwrap_or_else(|| panic!("{}", file.display()));
            text.push_str("#[repr(C)]\n");
            for line in declared[..end + 2].lines().filter(|line| !line.starts_with("#[derive(")) {
                text.push_str(line);
                text.push('\n');
            }
        }
    }
    text
}

fn main() {
    let here = PathBuf::from(env::var_os("CARGO_MANIFEST_DIR").expect("cargo names the folder"));
    let rust = here.parent().expect("the crate stands in rust/");
    let root = rust.parent().expect("rust/ stands in the repository");
    let native = rust.join("native");
    let folder = root.join("target").join("native");
    let archive = folder.join("libgateway.a");
    let done = Command::new(&native).arg(&archive).status();
    let done = done.unwrap_or_else(|e| panic!("{}: {e}", native.display()));
    assert!(done.success(), "{} failed: run it by hand to see why", native.display());

    // A crate's folder `out` has what the toolchain made of it.
    let read: Vec<PathBuf> = entries(&root.join("crates"))
        .iter()
        .flat_map(|folder| entries(folder))
        .filter(|path| !path.ends_with("out"))
        .collect();
    let mut files = Vec::new();
    for folder in read.iter().filter(|path| path.is_dir()) {
        sources(folder, &mut files);
    }
    let out =
        PathBuf::from(env::var_os("OUT_DIR").expect("cargo names the folder for what is made"));
    fs::write(out.join("records.rs"), records(&files)).unwrap();

    for path in read.into_iter().chain([root.join("crates.txt"), native, archive]) {
        println!("cargo:rerun-if-changed={}", path.display());
    }
    println!("cargo:rustc-link-search=native={}", folder.display());
    println!("cargo:rustc-link-lib=static=gateway");
}
