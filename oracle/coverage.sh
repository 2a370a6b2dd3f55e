#!/usr/bin/env bash
# coverage.sh [SEED [CALLS]]: which lines of the Rust the calls reach. The oracle is built without optimisation; its line table
# (objdump) says which lines have code, a run under callgrind which of them were executed. A function that nothing calls has
# no code at all, so those are listed too.
set -eu
cd "$(dirname "$0")/.."
seed=${1:-1} calls=${2:-50000}
dir=target/oracle
scripts/need objdump binutils 'it says which lines have code'
scripts/need valgrind valgrind 'it says which of them were executed'
PATH=$PATH:${HOME:-}/.cargo/bin

mkdir -p $dir
oracle/build.sh >$dir/build.log || { cat $dir/build.log; exit 1; }
(cd $dir/crate && CARGO_TARGET_DIR="$PWD/../plain" cargo build --offline --quiet)
plain=$dir/plain/debug/oracle
run=$(mktemp -d $dir/run.XXXXXX)
trap 'rm -rf "$run"' EXIT
$dir/build/release/oracle gen "$seed" 0 "$calls" >"$run/calls"
valgrind --tool=callgrind --callgrind-out-file="$run/ran" --compress-strings=no --compress-pos=no \
    $plain run <"$run/calls" >/dev/null 2>"$run/log" || { cat "$run/log"; exit 1; }

# FILE LINE of every line that has code, and of every line that was executed.
objdump --dwarf=decodedline $plain 2>/dev/null | awk '$1 ~ /\.rs$/ && $2 > 0 { print $1, $2 }' | sort -u >"$run/code"
awk '/^f[lie]=/ { n = split($0, part, "/"); file = part[n] } /^[0-9]/ { print file, $1 }' "$run/ran" | sort -u >"$run/executed"

for source in txbuf connection packet muxer_rxq muxer_killq; do
    file=$source.rs
    text=$dir/crate/original/$file
    code=$(awk -v f=$file '$1 == f { print $2 }' "$run/code" | sort -n)
    missed=$(comm -23 <(awk -v f=$file '$1 == f' "$run/code") <(awk -v f=$file '$1 == f' "$run/executed") | awk '{ print $2 }' | sort -n)
    with=$(wc -w <<<"$code") without=$(wc -w <<<"$missed")
    echo "$file: $with lines with code, $((with - without)) reached, $without not reached"
    for line in $missed; do sed -n "${line}s/^ */  not reached $line: /p" "$text"; done
    grep -nE '^ *(pub(\(crate\))? )?fn ' "$text" | while IFS=: read -r line rest; do
        grep -qx "$line" <<<"$code" || echo "  no code $line:${rest%%(*}"
    done
done
echo "coverage: seed $seed, $calls calls"
