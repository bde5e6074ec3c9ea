#!/usr/bin/env bash
# Runs a readable script of calls through the proved library and tells what each call did.
set -euo pipefail
script=$(realpath "${1:-$(dirname "$0")/tests/story/scripts/rent.txt}")
cd "$(dirname "$0")"
library=${SPIRERIVET_LIB:-$PWD/crates/spirerivet/out}/libspirerivet.a
[ -f "$library" ] || (cd crates/spirerivet && rt lib) >&2
cargo run --offline --quiet --manifest-path tests/Cargo.toml -p story -- run "$script"
