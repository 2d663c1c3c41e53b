//! Finds the original's six files and writes the module list that includes them where they stand:
//! they are compiled unchanged, and their text is never copied here. The degree rule is compiled a
//! second time with a counter in it, from a copy in the build's own folder.

use std::env;
use std::fmt::Write;
use std::fs;
use std::path::{Path, PathBuf};
use std::process;

const SOURCE_VARIABLE: &str = "STARKY_SRC";

/// From this manifest: the folder `shared` beside the repository.
const DEFAULT_SOURCE: &str = "../../../shared/docs/src/starky/src";

const MODULES: [&str; 6] = [
    "expressionops",
    "starkinfo",
    "starkinfo_codegen",
    "starkinfo_cp_prover",
    "starkinfo_map",
    "types",
];

/// The file of the degree rule, where its text begins, and where its signature ends.
const COUNTED_MODULE: &str = "starkinfo_cp_prover";
const RULE: &str = "fn _calculate_im_pols(";
const SIGNATURE_END: &str = ") -> (Option<HashMap<usize, bool>>, i32) {\n";

/// What the rule and what follows it use, and the statement that counts.
const COUNTED_USES: &str = "\
use crate::types::{Expression, PIL};
use anyhow::Result;
use std::collections::HashMap;

";
const COUNTING: &str = "    crate::visits::count();\n";

fn main() {
    println!("cargo:rerun-if-env-changed={}", SOURCE_VARIABLE);
    let source = source_folder();
    let mut list = String::new();
    for module in MODULES {
        let file = find(&source, module);
        println!("cargo:rerun-if-changed={}", file.display());
        writeln!(list, "#[path = {:?}]\npub mod {};", file, module).expect("a string takes all");
    }
    write_out("modules.rs", &list);
    write_out("counted.rs", &counted(&find(&source, COUNTED_MODULE)));
}

/// The degree rule and what follows it, with one statement more at the rule's entry.
fn counted(file: &Path) -> String {
    let text = fs::read_to_string(file)
        .unwrap_or_else(|error| give_up(&format!("cannot read {}: {}", file.display(), error)));
    let rule = &text[only(&text, RULE)..];
    let (signature, body) = rule.split_at(only(rule, SIGNATURE_END) + SIGNATURE_END.len());
    [COUNTED_USES, signature, COUNTING, body].concat()
}

/// The one place where a piece of text stands.
fn only(text: &str, piece: &str) -> usize {
    let places: Vec<usize> = text.match_indices(piece).map(|(place, _)| place).collect();
    match places[..] {
        [place] => place,
        _ => {
            give_up(&format!("{:?} stands in {} in {} places", piece, COUNTED_MODULE, places.len()))
        }
    }
}

fn write_out(name: &str, text: &str) {
    let target = PathBuf::from(variable("OUT_DIR")).join(name);
    if let Err(error) = fs::write(&target, text) {
        give_up(&format!("cannot write {}: {}", target.display(), error));
    }
}

fn source_folder() -> PathBuf {
    match env::var_os(SOURCE_VARIABLE) {
        Some(folder) => PathBuf::from(folder),
        None => PathBuf::from(variable("CARGO_MANIFEST_DIR")).join(DEFAULT_SOURCE),
    }
}

/// The module's file as an absolute path: `#[path]` would else be read from the output folder.
fn find(source: &Path, module: &str) -> PathBuf {
    let file = source.join(module).with_extension("rs");
    file.canonicalize().unwrap_or_else(|_| {
        give_up(&format!(
            "the original is missing: there is no {}; set {} to the absolute path of starky/src of eigen-zkvm, commit 9f4ded23d8",
            file.display(),
            SOURCE_VARIABLE
        ))
    })
}

fn variable(name: &str) -> String {
    env::var(name).unwrap_or_else(|_| give_up(&format!("cargo did not set {}", name)))
}

fn give_up(sentence: &str) -> ! {
    eprintln!("{}", sentence);
    process::exit(1)
}
