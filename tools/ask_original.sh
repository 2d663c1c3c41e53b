#!/usr/bin/env bash
# Builds the judge with the original Rust, runs its tests, and asks the original every stored vector again. STARKY_SRC names the original's folder.
set -euo pipefail
cd "$(dirname "$0")/.."

(cd oracle && cargo build --release --offline -q && cargo test --release --offline -q)
oracle/target/release/judge check vectors/generation.txt
oracle/target/release/plans check vectors/plans.txt
oracle/target/release/searches check vectors/searches.txt
