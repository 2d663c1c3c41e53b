#!/usr/bin/env bash
# Writes target/bin/steps and target/bin/listing, the programs of the crates of these names.
set -euo pipefail
cd "$(dirname "$0")/.."

mkdir -p target/bin
for program in steps listing; do
    (cd "crates/$program" && rt run <stdin >/dev/null)
    cp "crates/$program/out/$program" target/bin
done
