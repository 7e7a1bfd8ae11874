#!/usr/bin/env bash
# Times `turn`: an event of a run is turned, with all that is solved and the input that is built for it.
# Builds the program of bench/turn in a throw-away workspace, over copies of the crates that it stands on, runs it, and
# prints a table. No part of the gate. Takes some minutes over proofs that are kept, else as long as they take.
source "$(dirname "$0")/common.sh"
run_bench turn flip_solve run_laws sym_run input_map tac_lower c_types c_parse c_expressions c_lex cc_laws cc_model cc_base
tell_machine
awk 'BEGIN { printf "%-10s %6s %6s %-8s %12s %12s\n", "case", "size", "atoms", "answer", "best, ms", "mean, ms" }
    NF == 6 { printf "%-10s %6d %6d %-8s %12.3f %12.3f\n", $1, $2, $3, $4, $5 / 1e6, $6 / 1e6 }' "$room/times"
