#!/usr/bin/env bash
# Refuses memory to the program as ./tevgoral --proved builds it, or to the one that PROGRAM names: each call below is
# made with its Nth allocation refused, for each N until none is refused; first with that one alone, then with all
# behind it too. The answer has to be `no memory` and the status 7, and the output the first lines of the report with
# ample memory. There are two more: where the words get no memory, nothing is said; and where one allocation alone is
# refused, the whole answer may come, since a list that is refused the room for all that may follow asks for less.
# Tells how many allocations were refused, and each answer that is another, with which it ends as 1. No part of the
# gate. Wants gcc and glibc.
source "$(dirname "$0")/common.sh"
take_program
gcc -O2 -Wall -Wextra -shared -fPIC -o "$room/refuse.so" "$top/bench/memory/refuse.c"
cd "$room"
wrong=0

# Makes a call, with these words before it: leaves its answer in $out, $err and $status.
make_call() {
    status=0
    "$@" >output 2>error 3>refused || status=$?
    IFS= read -rd '' out <output || true
    IFS= read -rd '' err <error || true
}

# Whether the output is the first lines of the report, or nothing.
begins_the_report() {
    [[ $full == "$out"* && (-z $out || $out == *$'\n') ]]
}

# Judges the answer of a call to which memory was refused, and counts it.
judge() {
    if [[ $status = 7 && $err = $'no memory\n' ]] && begins_the_report; then
        refusals=$((refusals + 1))
    elif [[ $status = 7 && -z $err && -z $out && $silent = $((n - 1)) ]]; then
        silent=$n
    elif [[ $how = alone && $status = "$wanted" && -z $err && $out = "$full" ]]; then
        whole=$((whole + 1))
    else
        printf '%s, %s, allocation %s: status %s, error %q, output %q\n' "$name" "$how" "$n" "$status" "$err" "$out"
        wrong=1
    fi
}

# A name, the status with ample memory, and the words of the call.
refuse() {
    local name=$1 wanted=$2 how n out err status full refusals silent whole on
    shift 2
    make_call "$program" "$@"
    full=$out
    [[ $status = "$wanted" && -z $err ]] || { echo "$name: status $status, $err" && exit 1; }
    for how in alone onward; do
        refusals=0 silent=0 whole=0 on=()
        [ "$how" = alone ] || on=(REFUSE_ON=1)
        local -A lengths=()
        for ((n = 1; ; n++)); do
            make_call env "LD_PRELOAD=$room/refuse.so" "REFUSE=$n" "${on[@]}" "$program" "$@"
            [ -s refused ] || break
            judge
            lengths[${#out}]=
        done
        printf '%-8s %-8s %7d %10d %7d %7d %8d\n' \
            "$name" "$how" $((n - 1)) "$refusals" "$silent" "$whole" "${#lengths[@]}"
    done
}

cp "$top/examples/cell.c" cell.c
cat >two_cells.c <<'END'
struct cell { int v; struct cell *next; };
int f(struct cell *p, struct cell *q) {
  p->v = 1;
  q->v = 2;
  assert(p->v == 1);
  return 0;
}
END
"$program" run cell.c testme 100 -dfs 10 >report || true

printf '%-8s %-8s %7s %10s %7s %7s %8s\n' call refused tried 'no memory' silent whole outputs
refuse search 1 run cell.c testme 100 -dfs 10
refuse trace 1 trace two_cells.c f 3,3,0,0
refuse replay 0 replay cell.c testme report
exit "$wrong"
