#!/usr/bin/env bash
# Times whole calls of the tool over files in memory: runs of many steps and of many events, and input maps of many cells.
# Builds the program of bench/machine in a throw-away workspace, over copies of the crates that it stands on, runs it, and
# prints a table. No part of the gate. Takes some minutes over proofs that are kept, else as long as they take.
source "$(dirname "$0")/common.sh"
run_bench machine concolic_cli cc_outside
tell_machine
awk 'BEGIN { printf "%-10s %9s %6s %12s %12s\n", "case", "size", "status", "best, ms", "mean, ms" }
    NF == 5 { printf "%-10s %9d %6d %12.3f %12.3f\n", $1, $2, $3, $4 / 1e6, $5 / 1e6 }' "$room/times"
