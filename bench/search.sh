#!/usr/bin/env bash
# Times whole searches by the program as ./tevgoral --proved builds it, or by the one that PROGRAM names: a made program of N
# branches, K independent branches on K parameters, a walk along a list to a depth, and the list cell of examples/cell.c.
# Prints paths, runs, seconds, paths per second and the largest resident memory. What one path costs must not grow with the
# paths that are listed, so the independent branches stand in three sizes. No part of the gate. Wants GNU time as
# /usr/bin/time.
source "$(dirname "$0")/common.sh"
take_program

# K parameters, each with a branch of its own
independent() {
    awk -v k="$1" 'BEGIN {
        printf "int f("
        for (i = 1; i <= k; i++) printf "%sint a%d", (i > 1 ? ", " : ""), i
        print ") {"
        print "  int n = 0;"
        for (i = 1; i <= k; i++) printf "  if (a%d > 0) n = %d;\n", i, i
        print "  return n;"
        print "}"
    }'
}

cat >"$room/walk.c" <<'END'
struct cell { int v; struct cell *next; };
int f(struct cell *p) {
  while (p) p = p->next;
  return 0;
}
END

# a name, a size, and the words of a search
measure() {
    local name=$1 size=$2 seconds kilobytes last paths runs
    shift 2
    /usr/bin/time -f '%e %M' -o "$room/time" "$program" "$@" >"$room/out" 2>"$room/err" || true
    read -r seconds kilobytes < <(tail -n 1 "$room/time")
    last=$(tail -n 1 "$room/out")
    paths=$(grep -c '^test ' "$room/out" || true)
    case $1 in make) paths=$(sed -n 's/^complete paths=\([0-9]*\) .*/\1/p' "$room/out") ;; esac
    awk -v name="$name" -v size="$size" -v paths="${paths:-0}" -v seconds="$seconds" -v kb="$kilobytes" -v last="$last" 'BEGIN {
        each = "-"
        if (seconds > 0) each = sprintf("%.0f", paths / seconds)
        printf "%-12s %6s %8d %9.2f %10s %7d  %s\n", name, size, paths, seconds, each, kb / 1024, last
    }'
}

tell_machine
"$program" run "$top/examples/cell.c" testme 1 -dfs 1 >/dev/null || true
printf '%-12s %6s %8s %9s %10s %7s  %s\n' search size paths seconds paths/s MB 'last line'
for n in 256 512 1024; do
    measure make "$n" make "$n"
done
for k in 8 10 12; do
    independent "$k" >"$room/independent.c"
    measure independent "$k" run "$room/independent.c" f 1000000 -dfs "$k"
done
for d in 10 20 40; do
    measure walk "$d" run "$room/walk.c" f 1000000 -dfs "$d" -objects 25
done
measure cell 10 run "$top/examples/cell.c" testme 100 -dfs 10
