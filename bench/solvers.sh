#!/usr/bin/env bash
# Times the solvers as `rt run` builds them: builds the program of bench/solvers in a throw-away workspace, over copies
# of the crates that it stands on, runs it, and prints a table. The program is proved too, so that each call meets what
# the solvers require. No part of the gate. Takes about a minute over proofs that are kept, else as long as they take.
source "$(dirname "$0")/common.sh"
TRY=${TRY:-run --jobs 1}
run_bench solvers cc_base sym_expr pointer_solver linear_solver
tell_machine
awk 'BEGIN { printf "%-26s %6s %-8s %12s %12s\n", "case", "atoms", "answer", "best, ms", "mean, ms" }
    { printf "%-26s %6d %-8s %12.3f %12.3f\n", $1, $2, $3, $4 / 1e6, $5 / 1e6 }' "$room/times"
