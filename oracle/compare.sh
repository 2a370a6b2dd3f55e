#!/usr/bin/env bash
# compare.sh SEED CALLS [PROGRAM LENT]: makes calls by a seed, runs each through the Rust and through the port, and compares the
# replies byte for byte. PROGRAM is the port's side, whose runs hold rings of up to LENT bytes; if not said, replay_calls. The calls
# go in batches, so that nothing grows; the counts of every entry and answer stand in target/oracle/counts.
set -eu
cd "$(dirname "$0")/.."
seed=$1 calls=$2 program=${3:-replay_calls} lent=${4:-}
dir=target/oracle
oracle=$dir/build/release/oracle
batch=50000

mkdir -p $dir
oracle/build.sh >$dir/build.log || { cat $dir/build.log; exit 1; }
tail -n 1 $dir/build.log
oracle/port.sh

run=$(mktemp -d $dir/run.XXXXXX)
trap 'rm -rf "$run"' EXIT
start=$(date +%s)
done=0
for ((b = 0; done < calls; b++)); do
    n=$((calls - done < batch ? calls - done : batch))
    $oracle gen "$seed" "$b" "$n" $lent >"$run/calls"
    $oracle run <"$run/calls" >"$run/rust"
    scripts/program "$program" <"$run/calls" >"$run/port"
    if ! cmp -s "$run/rust" "$run/port"; then
        echo "compare: seed $seed, batch $b:"
        $oracle differ "$run/calls" "$run/rust" "$run/port"
        exit 1
    fi
    $oracle tally <"$run/rust" >>"$run/tallies"
    $oracle shrunk <"$run/calls" >>"$run/shrunk"
    $oracle shut <"$run/calls" >>"$run/shut"
    $oracle killed <"$run/calls" >>"$run/killed"
    $oracle larger <"$run/calls" >>"$run/larger"
    done=$((done + n))
    [ "$calls" -le "$batch" ] || echo "compare: $done of $calls calls, $(($(date +%s) - start)) s" >&2
done

# Columns: entry, name, answer, whose reply (R the Rust's, - what 01 says), how often.
awk '{ n[$1 " " $2 " " $3 " " $4] += $5 } END { for (k in n) print k, n[k] }' "$run/tallies" | sort -n -k1,1 -k3,3 -k4,4 >$dir/counts
awk -v seed="$seed" -v s=$(($(date +%s) - start)) \
    '{ all += $5; if ($4 == "R") rust += $5 } END { printf "compare: seed %s, %d calls without a difference in %d s: %d against the Rust, %d refusals against 01\n", seed, all, s, rust, all - rust }' $dir/counts
awk '{ met += $1; by += $2; both += $3 } END { printf "compare: %d calls met a guest that allocates less than is outstanding, %d of the %d that go by credit\n", met, both, by }' "$run/shrunk"
awk '{ for (i = 1; i <= 6; i++) n[i] += $i } END { printf "compare: SHUTDOWNs that leave both flags set while bytes are held, without and with a timer that runs: %d and %d in Established, %d and %d in PeerClosed, %d and %d where both were set before\n", n[1], n[2], n[3], n[4], n[5], n[6] }' "$run/shut"
awk '{ for (i = 1; i <= 5; i++) n[i] += $i } END { printf "compare: calls that kill while more than a reset is pending: %d by a failed write, %d by a full ring, %d by a failed flush, %d by kill; %d failed flushes fall short of the threshold\n", n[1], n[2], n[3], n[4], n[5] }' "$run/killed"
awk '{ for (i = 1; i <= 7; i++) n[i] += $i } END { printf "compare: calls over the limits before 2026-10: on rings %d that lend the storage (%d go round its end, %d flush a piece over 65,536) and %d that lend none; %d builds from tables; %d on RX queues, of which %d hold more than 256\n", n[1], n[2], n[3], n[4], n[5], n[6], n[7] }' "$run/larger"
