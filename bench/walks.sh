#!/usr/bin/env bash
# Times the walks: up to 10,000 runs of each on a list program, and the flow-directed one on decisions that hang on one
# parameter each, so that each run covers something new. The flow-directed walk ends where nothing new is in reach. Takes the
# program as ./tevgoral --proved builds it, or PROGRAM. No part of the gate. Wants GNU time as /usr/bin/time.
source "$(dirname "$0")/common.sh"
take_program
cd "$room"

cat >list.c <<'C'
struct cell { int v; struct cell *next; };
int f(struct cell *p, int x) {
  int n;
  n = 0;
  while (p) {
    if (p->v == x) n = n + 1;
    if (p->v > x) x = p->v;
    p = p->next;
  }
  if (n > 3) return 1;
  return 0;
}
C

# so many parameters, each with a decision of its own
independent() {
    awk -v n="$1" 'BEGIN {
        printf "int f("
        for (i = 1; i <= n; i++) printf "%sint a%d", (i > 1 ? ", " : ""), i
        print ") {\n  int n = 0;"
        for (i = 1; i <= n; i++) printf "  if (a%d > 0) n = %d;\n", i, i
        print "  return n;\n}"
    }'
}

tell_machine
printf '%-8s %-16s %8s %10s %8s  %s\n' source walk runs seconds MB last
row() {
    /usr/bin/time -f '%e %M' -o time "$program" run "$1.c" f "$2" "$3" "$4" >report 2>&1 || true
    read -r seconds kilobytes <<<"$(tail -1 time)"
    printf '%-8s %-16s %8d %10.2f %8d  %s\n' "$1" "$3" "$2" "$seconds" $((kilobytes / 1024)) "$(tail -1 report)"
}
for walk in -random -uniform_random -cfg; do
    row list 1000 "$walk" 50
    row list 10000 "$walk" 50
done
for n in 32 64 128 256; do
    independent "$n" >"own$n.c"
    row "own$n" 10000 -cfg 1024
done
