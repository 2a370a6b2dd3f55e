#!/usr/bin/env bash
# larger.sh SEED CALLS: the comparison with rings of up to the largest size lent. No program here holds a ring over 65,536 bytes, so the
# modules of replay_calls are proved once more as a static library, in a copy, and a host in C (lend.c) lends it its runs.
set -eu
cd "$(dirname "$0")/.."
seed=$1 calls=$2
cc=$(scripts/x86 gcc 'it links a host that lends large rings')
mkdir -p target/oracle target/bin
oracle/build.sh >target/oracle/build.log || { cat target/oracle/build.log; exit 1; }
oracle/port.sh

# What rt has proved is taken along.
copy=$(mktemp -d)
trap 'rm -rf "$copy"' EXIT
cp -Rp crates crates.txt "$copy/"
sed -i 's/^replay_calls:/replay_calls staticlib:/' "$copy/crates.txt"
src=$copy/crates/replay_calls/src
{ grep '^#!\[' $src/main.rt; grep '^mod ' $src/main.rt; echo 'pub use replay::vsock_replay;'; } >"$src/lib.rt"
rm -r "$src/main.rt" "$copy/crates/replay_calls/out" "$copy/crates/replay_calls/stdin" "$copy/crates/replay_calls/stdout"
echo "larger: proving the port's side as a library, some minutes" >&2
(cd "$copy/crates/replay_calls" && rt lib) >target/oracle/larger.log 2>&1 || { cat target/oracle/larger.log; exit 1; }

largest=$(sed -n 's/^pub const MAX_RING_SIZE: u32 = \([0-9]*\);$/\1/p' crates/defs/src/limits.rt)
# The library reads and writes by the kit's io, which calls these wrappers of the C library's read and write.
c=$(dirname "$(rt doc)")/c
$cc -std=c11 -O2 -Wall -Wextra -Werror -DLENT="($largest + 64)" oracle/lend.c "$copy/crates/replay_calls/out/libreplay_calls.a" "$c/libos_c.a" "$c/liblibc_c.a" -o target/bin/lend
oracle/compare.sh "$seed" "$calls" lend "$largest"
