//! The judge's commands on whole programs: one that answers as the original does, and one that
//! changes a byte of it.

use std::fs;
use std::os::unix::fs::PermissionsExt;
use std::path::{Path, PathBuf};
use std::process::{Command, Output};

const JUDGE: &str = env!("CARGO_BIN_EXE_judge");

const RUNS: &str = "\
run fused
each 0 2 011000{}00
010400000003000000010002
02000300
0300000001
output original
041200000003100000001000010010000200
fe0000
end

run not-there
0300000000
output original
ff03
end
";

fn in_folder(name: &str, text: &str) -> PathBuf {
    let path = Path::new(env!("CARGO_TARGET_TMPDIR")).join(name);
    fs::write(&path, text).expect("a file in the target folder");
    path
}

fn script(name: &str, command: &str) -> PathBuf {
    let path = in_folder(name, &format!("#!/bin/sh\n{}\n", command));
    fs::set_permissions(&path, fs::Permissions::from_mode(0o755)).expect("a program");
    path
}

fn judge(words: &[&str], file: &Path, rest: &[&str]) -> Output {
    Command::new(JUDGE).args(words).arg(file).args(rest).output().expect("the judge")
}

fn said(bytes: &[u8]) -> String {
    String::from_utf8_lossy(bytes).into_owned()
}

#[test]
fn a_changed_byte_is_caught() {
    let answer = format!("'{}' steps-answer", JUDGE);
    let right = script("right", &answer);
    let wrong = script("wrong", &format!("{} | sed 's/^0412/0312/'", answer));

    let equal = judge(&["steps"], &right, &["3", "200"]);
    assert!(equal.status.success(), "{}", said(&equal.stderr));
    let table = said(&equal.stdout).replace(' ', "");
    assert!(table.contains("|Runs|200|\n|Equal|200|\n"), "{}", table);

    let different = judge(&["steps"], &wrong, &["3", "200"]);
    assert_eq!(different.status.code(), Some(1), "{}", said(&different.stderr));
    let shown = said(&different.stderr);
    assert!(shown.contains(r#"line 1: expected "0412"#), "{}", shown);
    // A line before the input and one after it; the input is a sum that fuses, and its request.
    assert_eq!(shown.lines().count(), 1 + 7 + 1, "{}", shown);

    let runs = in_folder("runs.txt", RUNS);
    let runs = runs.to_str().expect("a plain path");
    let replayed = judge(&["steps-check"], &right, &[runs]);
    assert!(replayed.status.success(), "{}", said(&replayed.stderr));
    assert_eq!(said(&replayed.stdout), "steps: 2 runs, 2 equal\n");
    let replayed = judge(&["steps-check"], &wrong, &[runs]);
    assert_eq!(replayed.status.code(), Some(1));
    assert_eq!(said(&replayed.stdout), "steps: 2 runs, 1 equal\n");
    assert!(said(&replayed.stderr).starts_with("fused: line 1: expected \"0412"));

    let missing = judge(&["steps"], Path::new("/no/such/program"), &["1", "1"]);
    assert_eq!(missing.status.code(), Some(2));
}
