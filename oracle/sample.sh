#!/usr/bin/env bash
# sample.sh: makes the stored calls and replies of replay_calls anew, and what the Rust says to them (01, where it refuses
# them): of the first 8,000 calls of seed 67, 3,000 of at most 600 bytes, 60 of more and at most 20,000, and 4 of over 65,536.
set -eu
cd "$(dirname "$0")/.."
oracle=target/oracle/build/release/oracle
stored=crates/replay_calls
mkdir -p target/oracle
oracle/build.sh >target/oracle/build.log || { cat target/oracle/build.log; exit 1; }
for sizes in "0 600 3000" "600 20000 60" "65536 150000 4"; do
    $oracle gen 67 0 8000 | $oracle sized $sizes
done >$stored/stdin
$oracle run <$stored/stdin >$stored/stdout
$oracle tally <$stored/stdout
