#!/usr/bin/env bash
# Runs each command of commands.txt, and compares what it writes with the stored listing, and its status. Takes the program
# as ./tevgoral builds it, or the one that PROGRAM names. With the word `write` it stores what is written instead.
set -u
cd "$(dirname "${BASH_SOURCE[0]}")/.."
program=${PROGRAM:-./tevgoral}
room=$(mktemp -d)
trap 'rm -rf "$room"' EXIT
count=0
failed=0
while read -r name status words; do
    case $name in '' | '#'*) continue ;; esac
    count=$((count + 1))
    # blanks part the words, and stand in none of them
    # shellcheck disable=SC2086
    "$program" $words >"$room/out" </dev/null
    ended=$?
    if [ "${1-}" = write ]; then
        cp "$room/out" "examples/$name.txt"
    elif ! diff "examples/$name.txt" "$room/out"; then
        echo "$name: another listing"
        failed=$((failed + 1))
    fi
    if [ "$ended" != "$status" ]; then
        echo "$name: status $ended, not $status"
        failed=$((failed + 1))
    fi
done <examples/commands.txt
echo "$count examples, $failed differences"
[ "$failed" = 0 ]
