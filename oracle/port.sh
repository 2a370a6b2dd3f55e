#!/usr/bin/env bash
# port.sh: sees that the program replay_calls, the proved port's side of the comparison, is there and new.
cd "$(dirname "$0")/.." && exec scripts/prove replay_calls
