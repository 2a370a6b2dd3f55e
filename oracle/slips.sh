#!/usr/bin/env bash
# slips.sh [SEED [CALLS [LIST PROGRAM LENT]]]: puts each slip of a list (slips.txt) into a copy of the Rust, one at a time, and says at
# which call the comparison finds it. It fails where one is not found. PROGRAM and LENT are as in compare.sh.
set -eu
cd "$(dirname "$0")/.."
seed=${1:-1} calls=${2:-100000} list=${3:-oracle/slips.txt} program=${4:-replay_calls} lent=${5:-}
dir=target/oracle
oracle=$dir/build/release/oracle
PATH=$PATH:${HOME:-}/.cargo/bin

mkdir -p $dir
oracle/build.sh >$dir/build.log || { cat $dir/build.log; exit 1; }
oracle/port.sh
$oracle gen "$seed" 0 "$calls" $lent >$dir/slip.calls
scripts/program "$program" <$dir/slip.calls >$dir/slip.port
$oracle run <$dir/slip.calls | cmp - $dir/slip.port || { echo "slips: a difference without any slip"; exit 1; }

slip=$dir/slip
rm -rf $slip/crate
mkdir -p $slip
cp -R $dir/crate $slip/crate
missed=0 tried=0
while IFS=$'\t' read -r file rule what; do
    case $file in '' | '#'*) continue ;; esac
    tried=$((tried + 1))
    sed "$rule" "$dir/crate/original/$file" >"$slip/crate/original/$file"
    lines=$(diff "$dir/crate/original/$file" "$slip/crate/original/$file" | grep -c '^>' || true)
    [ "$lines" = 1 ] || { echo "slips: $file: $what: $lines lines changed, not 1"; exit 1; }
    (cd $slip/crate && CARGO_PROFILE_RELEASE_OPT_LEVEL=0 CARGO_TARGET_DIR="$PWD/../build" cargo build --offline --release --quiet 2>../build.log) ||
        { cat $slip/build.log; echo "slips: $file: $what: does not build"; exit 1; }
    $slip/build/release/oracle run <$dir/slip.calls >$dir/slip.rust 2>/dev/null || true
    found=$($oracle differ $dir/slip.calls $dir/slip.rust $dir/slip.port | sed -n 's/^call \([0-9]*\) differs$/\1/p')
    echo "| $file | $what | ${found:-NOT FOUND} |"
    [ -n "$found" ] || missed=$((missed + 1))
    cp "$dir/crate/original/$file" "$slip/crate/original/$file"
done <"$list"
rm -f $dir/slip.calls $dir/slip.port $dir/slip.rust
echo "slips: $tried tried by seed $seed, $missed not found within $calls calls"
[ "$missed" = 0 ]
