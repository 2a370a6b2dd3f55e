#!/usr/bin/env bash
# compare-if-at-hand.sh SEED CALLS: compare.sh where cargo and the Rust are at hand; else one line that says why not.
set -eu
cd "$(dirname "$0")/.."
from=${DBS_VIRTIO_SRC:-../shared/docs/src}
PATH=$PATH:${HOME:-}/.cargo/bin
skip() {
    echo "compare: SKIPPED, $1; rt ci still compares the stored replies of the Rust (crates/replay_calls)"
    exit 0
}
command -v cargo >/dev/null || skip "no cargo"
[ -f "$from/src/vsock/csm/connection.rs" ] || skip "no Rust in $from (DBS_VIRTIO_SRC)"
exec oracle/compare.sh "$@"
