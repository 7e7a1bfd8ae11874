# What the benches share; each takes it in by `source`. `top` is the repository, `room` a folder that goes when they end.
set -euo pipefail
top=$(cd "$(dirname "${BASH_SOURCE[0]}")/.." && pwd)
room=$(mktemp -d)
trap 'rm -rf "$room"' EXIT

# Says which machine this is.
tell_machine() {
    lscpu | grep -E '^(Model name|CPU\(s\)):' | sed 's/:  */: /'
    free -g | awk '/^Mem/ { print "Memory: " $2 " GB" }'
}

# Sets `program` to the proved program, which ./tevgoral --proved builds where it has to, or to PROGRAM.
take_program() {
    [ -n "${PROGRAM-}" ] || "$top/tevgoral" --proved
    program=${PROGRAM:-$top/crates/tevgoral/out/tevgoral}
}

# Builds the program of bench/NAME, which stands on these crates, in a workspace of its own over copies of all crates, runs
# it, and leaves what it writes in $room/times. It is proved too; TRY='try' runs it before any proof.
run_bench() {
    local name=$1 crate
    shift
    mkdir "$room/crates"
    for crate in "$top"/crates/*/; do
        mkdir "$room/crates/$(basename "$crate")"
        cp -r "$crate"/{src,specs,proofs} "$room/crates/$(basename "$crate")" 2>/dev/null || true
    done
    cp "$top/crates.txt" "$top/HANDLES" "$room"
    echo "bench_$name: $*" >>"$room/crates.txt"
    # the program's files have the ending .txt here, since the gate takes each .rt and .antt file for a crate's
    cp -r "$top/bench/$name" "$room/crates/bench_$name"
    find "$room/crates/bench_$name" -name '*.txt' | while read -r file; do mv "$file" "${file%.txt}"; done
    cd "$room/crates/bench_$name"
    # shellcheck disable=SC2086 # more than one word may stand in TRY
    if ! rt ${TRY:-run} >"$room/times" 2>"$room/log"; then
        cat "$room/log" >&2
        exit 1
    fi
}
