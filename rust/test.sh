#!/usr/bin/env bash
# Runs the tests of this folder offline, doc examples too, over the archives that tools/archives makes. The last line is
# 'N passed, 0 failed' where nothing failed; else the exit status is not 0. Nothing outside this folder is written.
set -uo pipefail
cd "$(dirname "$0")" || exit 1

mkdir -p target
export CARGO_HOME="$PWD/target/cargo-home"
export CARGO_TARGET_DIR="$PWD/target"
log=target/test.log
cargo test --offline --release --workspace --no-fail-fast > "$log" 2>&1
status=$?

sum() { awk -v word="$1" '/^test result:/ { for (i = 2; i <= NF; i++) if ($i ~ "^" word) n += $(i - 1) } END { print n + 0 }' "$log"; }
passed=$(sum passed)
failed=$(sum failed)
if [ "$status" -ne 0 ] || [ "$failed" -ne 0 ] || [ "$passed" -eq 0 ]; then
  cat "$log"
  echo "rust: tests failed ($failed), or the build did"
  exit 1
fi
echo "$passed passed, 0 failed"
