#!/usr/bin/env bash
# Builds the workspace offline and runs every test of it. The library must stand in FIKREM_LIB, or in target/staticlib.
set -euo pipefail
# from the root on: cargo runs elsewhere
if [ -n "${FIKREM_LIB:-}" ]; then
  FIKREM_LIB="$(cd "$FIKREM_LIB" && pwd)"
  export FIKREM_LIB
fi
cd -P "$(dirname "${BASH_SOURCE[0]}")"
# Outside the source tree, and another for each place of the repository: cargo takes files of two copies for the same.
export CARGO_TARGET_DIR="${CARGO_TARGET_DIR:-${TMPDIR:-/tmp}/fikrem-cargo-$(pwd | cksum | cut -d' ' -f1)}"
jobs="${CARGO_BUILD_JOBS:-1}"

# Every Cargo.toml of the repository is the workspace's or a member's.
members="$(cargo metadata --offline --no-deps --format-version 1 | grep -o '"manifest_path":"[^"]*"' | cut -d'"' -f4)"
root="$(cd .. && pwd)"
while IFS= read -r manifest; do
  if [ "$manifest" != "$PWD/Cargo.toml" ] && ! grep -qxF "$manifest" <<<"$members"; then
    echo "check: $manifest is no member of the workspace" >&2
    exit 1
  fi
done < <(find "$root" \( -path "$root/target" -o -path "$root/.git" \) -prune -o -name Cargo.toml -print)

if cargo fmt --version >/dev/null 2>&1; then
  cargo fmt --all --check
fi
# The lints of the wrapper and of the program for the desk: nothing in them panics.
if cargo clippy --version >/dev/null 2>&1; then
  cargo clippy --offline --locked --quiet -p fikrem -p desk -j "$jobs"
fi
# This builds every library, program, example and test, and runs the tests; the benchmarks are built and not run, but for their test.
cargo test --offline --locked --workspace -j "$jobs"
