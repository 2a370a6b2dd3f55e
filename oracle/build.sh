#!/usr/bin/env bash
# build.sh [original]: builds the oracle from the Rust in $DBS_VIRTIO_SRC (default ../shared/docs/src), and prints what was
# changed in it. By default it takes the patches of $PATCHES (default oracle/patches.txt) and goes to target/oracle; the
# original takes none and goes to target/original. None of it is kept in the repository.
set -eu
cd "$(dirname "$0")/.."
fail() { echo "oracle: $1" >&2; exit 1; }
case ${1:-} in
    '') dir=target/oracle patches=${PATCHES:-oracle/patches.txt} ;;
    original) dir=target/original patches=/dev/null ;;
    *) fail "usage: build.sh [original]" ;;
esac
from=${DBS_VIRTIO_SRC:-../shared/docs/src}/src/vsock
crate=$dir/crate
PATH=$PATH:${HOME:-}/.cargo/bin
[ -f "$from/csm/connection.rs" ] || fail "no $from/csm/connection.rs: set DBS_VIRTIO_SRC"

mkdir -p "$crate/original" "$crate/src/vsock"
cp -Rp oracle/driver/. "$crate/"

# A file that is not new keeps its time, so that cargo builds nothing twice.
put() { cat >"$1.new"; if cmp -s "$1.new" "$1"; then rm "$1.new"; else mv "$1.new" "$1"; fi; }

# The limits are the port's own, of defs: every constant there stands on a line of its own.
limits=crates/defs/src/limits.rt
constant='^pub const [A-Z_]*: u[0-9a-z]* = [0-9A-Z_ */+-]*;$'
[ "$(grep -c "$constant" $limits)" = "$(grep -c '^ *\(pub \)*const ' $limits)" ] || fail "$limits: a constant that is not on one line"
{ echo "//! By oracle/build.sh from $limits."; grep "$constant" $limits; } | put "$crate/src/limits.rs"

# edit WHAT LINES RULE..: changes the copy at hand by sed rules, which must change just so many lines; prints each.
edit() {
    local what=$1 lines=$2 rule rules=() n
    shift 2
    for rule; do rules+=(-e "$rule"); done
    sed "${rules[@]}" "$crate/copy" >"$crate/edited" || fail "$what: sed failed"
    n=$(diff "$crate/copy" "$crate/edited" | grep -c '^>' || true)
    [ "$n" = "$lines" ] || fail "$what: $n lines changed, not $lines: the source is not as expected"
    diff "$crate/copy" "$crate/edited" | sed -n "s|^> |$what: |p" || true
    mv "$crate/edited" "$crate/copy"
}

# lay FILE PLACE [LINES RULE..]: puts FILE at PLACE: byte for byte, or changed by the rules, and then by its patches.
changed=0 patched=0 used=0
lay() {
    local file=$1 place=$2 request name lines rule
    shift 2
    cp "$from/$file" "$crate/copy"
    if [ $# != 0 ]; then
        edit "$file" "$@"
        changed=$((changed + $1))
    fi
    while IFS=$'\t' read -r request name lines rule; do
        if [ "$name" = "$file" ]; then
            edit "$request, $file" "$lines" "$rule"
            patched=$((patched + lines)) used=$((used + 1))
        fi
    done < <(grep '^[^#]' "$patches")
    put "$crate/$place" <"$crate/copy"
    rm "$crate/copy"
}

lay csm/connection.rs original/connection.rs
lay packet.rs original/packet.rs
lay muxer/muxer_impl.rs original/muxer_impl.rs
lay mod.rs src/vsock/mod.rs
for file in mod tcp unix_stream; do lay backend/$file.rs src/vsock/backend/$file.rs; done

# A size that can be set can be no constant.
size='s/^    const SIZE: usize = \(.*\);$/    fn size() -> usize { \1 }/'
sizes='/^ *\/\//!s/Self::SIZE/Self::size()/g'
lay csm/txbuf.rs original/txbuf.rs 7 "$size" "$sizes"
lay muxer/muxer_rxq.rs original/muxer_rxq.rs 4 "$size" "$sizes"
lay muxer/muxer_killq.rs original/muxer_killq.rs 5 "$size" "$sizes"

# The settings: each constant becomes a symbol that the driver sets.
setting='s/^    pub const \(CONN_[A-Z_]*\|MUXER_[A-Z_]*\): \(u32\|u64\|usize\) = .*;$/    unsafe extern "C" { pub safe static \1: \2; }/'
lay csm/mod.rs src/vsock/csm/mod.rs 4 "$setting"
lay muxer/mod.rs src/vsock/muxer/mod.rs 2 "$setting"

listed=$(grep -c '^[^#]' "$patches" || true)
[ "$used" = "$listed" ] || fail "$patches: $listed patches, of which $used name a file that is built"
echo "oracle: $changed lines changed for what can be set, $patched by patches; every other line of the Rust as it is"

(cd "$crate" && CARGO_TARGET_DIR="$PWD/../build" cargo build --offline --release --quiet) || fail "cargo failed"
