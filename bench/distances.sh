#!/usr/bin/env bash
# Times `distances` on chains of decisions, on functions that are called once each, and on one function that is called from
# many places. Builds the program of bench/distances in a throw-away workspace, over copies of the crates that it stands on,
# runs it, and prints a table; the size is the number of decisions, and of calls in `shared`. No part of the gate. Takes some
# minutes over proofs that are kept, else as long as they take.
source "$(dirname "$0")/common.sh"
run_bench distances search_walks tac_lower c_types c_parse c_expressions c_lex cc_laws cc_model cc_base
tell_machine
awk 'BEGIN { printf "%-10s %10s %14s %12s\n", "case", "size", "instructions", "best, ms" }
    NF == 4 { printf "%-10s %10d %14d %12.3f\n", $1, $2, $3, $4 / 1e6 }' "$room/times"
