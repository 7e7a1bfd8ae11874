#!/usr/bin/env bash
# Times `replay` of 10,000 tests of examples/cell.c: the report of a search, its tests one after the other until there are so
# many. Takes the program as ./tevgoral --proved builds it, or PROGRAM. No part of the gate. Wants GNU time as /usr/bin/time.
source "$(dirname "$0")/common.sh"
take_program
cd "$room"

cp "$top/examples/cell.c" t.c
"$program" run t.c testme 100 -dfs 10 >report || true
tell_machine
printf '%8s %10s %10s %8s  %s\n' tests bytes seconds MB answer
for count in 1000 10000 100000; do
    awk -v count="$count" 'NR == 1 { print } $1 == "test" { tests[n++] = $0 }
        END { for (i = 0; i < count; i++) print tests[i % n] }' report >tests
    /usr/bin/time -f '%e %M' -o time "$program" replay t.c testme tests >answer 2>&1 || true
    read -r seconds kilobytes <time
    printf '%8d %10d %10.2f %8d  %s\n' "$count" "$(stat -c %s tests)" "$seconds" $((kilobytes / 1024)) "$(head -1 answer)"
done
