#!/usr/bin/env bash
# Writes target/staticlib/libhost.a with all exported functions, those of the crate host_c.
set -euo pipefail
cd "$(dirname "$0")/.."

(cd crates/host_c && rt lib)
mkdir -p target/staticlib
cp crates/host_c/out/libhost_c.a target/staticlib/libhost.a
