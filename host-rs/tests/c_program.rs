//! A C program over `include/enonkasse.h` and the static library. The compiler is the one that links Rust's programs.

use std::env;
use std::path::Path;
use std::process::Command;

const PRINTED: &str = "\
041200000003100000001000010011000001
fe0000
kind 12, id 0: 18
built 1, 1 and 1 steps
the primed request is refused with 5
";

#[test]
fn document_01s_example_runs() {
    let root = Path::new(env!("CARGO_MANIFEST_DIR")).join("..");
    let program = Path::new(env!("CARGO_TARGET_TMPDIR")).join("example");
    let library =
        env::var_os("ENONKASSE_LIBRARY").map_or(root.join("target/staticlib"), Into::into);
    let compiled = Command::new("cc")
        .args(["-std=c99", "-Wall", "-Wextra", "-Werror", "-pedantic", "-I"])
        .arg(root.join("include"))
        .arg(root.join("include/example.c"))
        .arg(library.join("libhost.a"))
        .arg("-o")
        .arg(&program)
        .status();
    assert!(compiled.expect("a C compiler").success());
    let output = Command::new(&program).output().expect("the program runs");
    assert_eq!(String::from_utf8_lossy(&output.stdout), PRINTED);
    assert!(output.status.success());
}
