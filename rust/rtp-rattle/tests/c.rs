//! The header for C: tests/worked.c, compiled against it by the C compiler that rustc links with, and run.

use std::env;
use std::ffi::OsString;
use std::path::Path;
use std::process::Command;

#[test]
fn worked_in_c() {
    let here = Path::new(env!("CARGO_MANIFEST_DIR"));
    let root = here.ancestors().nth(2).unwrap();
    let program = Path::new(env!("CARGO_TARGET_TMPDIR")).join("worked");
    let compiler = env::var_os("CC").unwrap_or_else(|| OsString::from("cc"));
    let compiled = Command::new(compiler)
        .args(["-std=c11", "-O2", "-Wall", "-Wextra", "-pedantic", "-Werror", "-I"])
        .arg(root.join("crates/gateway/include"))
        .arg(here.join("tests/worked.c"))
        .arg(root.join("target/native/libgateway.a"))
        .arg("-o")
        .arg(&program)
        .status()
        .unwrap();
    assert!(compiled.success());
    assert!(Command::new(&program).status().unwrap().success());
}
