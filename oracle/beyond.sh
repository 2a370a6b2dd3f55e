#!/usr/bin/env bash
# beyond.sh: what the original Rust, without any patch, does with the calls of docs/DIFFERENCES.md.
set -u
cd "$(dirname "$0")/.." || exit 1
mkdir -p target/original
oracle/build.sh original >target/original/build.log || { cat target/original/build.log; exit 1; }
exec target/original/build/release/oracle beyond
