#!/usr/bin/env bash
# Times the front end on sources of 1,048,576 bytes at most: each is read and checked whole, and the program makes one run
# of its tested function, or, for `fields` and `many_fields`, says what is too large. Takes the program as
# ./tevgoral --proved builds it, or PROGRAM, and prints a table of seconds and of the largest resident memory. No part of the gate. Wants GNU time as
# /usr/bin/time.
source "$(dirname "$0")/common.sh"
take_program

limit=1048576

# lines of a kind until the source has the size, and a tested function
make_source() {
    awk -v kind="$1" -v size="$2" 'function add(s) { printf "%s", s; n += length(s) }
    BEGIN {
        n = 0; i = 0
        if (kind == "locals") add("int f(void) {\n")
        if (kind == "typedefs") add("struct s { int v; };\n")
        if (kind == "many_fields") add("struct s {\n")
        if (kind == "fields") {
            add("struct s {\n")
            for (k = 0; k < 256; k++) add(sprintf("int member_%03d;\n", k))
            add("};\nint f(struct s *p) {\n")
        }
        if (kind == "lines") {
            add("int f(int x) {\n")
            for (k = 0; k < 4096; k++) add("x = x + 1;\n")
            add("return x;\n}\n")
            for (i = 0; i < 5000; i++) {
                add(sprintf("int function_%05d(int first, int second) {\n  int third_number_of_all;\n  third_number_of_all = first;\n", i))
                add("  first = third_number_of_all;\n  return third_number_of_all;\n}\n")
            }
            add("/*")
            while (n < size - 3) add(" ")
            add("*/\n")
        }
        while (n < size - 80) {
            if (kind == "functions") add(sprintf("int f%d(int x) {\n  int y;\n  y = x;\n  return y;\n}\n", i))
            if (kind == "globals") add(sprintf("int g%d;\n", i))
            if (kind == "locals") add(sprintf("int v%d;\n", i))
            if (kind == "structs") add(sprintf("struct s%d { int v; struct s%d *next; };\n", i, i))
            if (kind == "typedefs") add(sprintf("typedef struct s name_of_the_struct_number_%06d;\n", i))
            if (kind == "prototypes") add("int function_that_is_declared_often(int x, int *y);\n")
            if (kind == "fields") add(sprintf("p->member_%03d = 1;\n", i % 256))
            if (kind == "many_fields") add(sprintf("int m%d;\n", i))
            i++
        }
        if (kind == "many_fields") add("};\n")
        if (kind == "locals" || kind == "fields") add("return 0; }\n")
        else if (kind != "lines") add("int f(int x) { return x; }\n")
    }'
}

tell_machine
printf '%-12s %10s %8s %10s %8s  %s\n' source bytes lines seconds MB answer
for kind in lines functions globals locals structs typedefs prototypes fields many_fields; do
    for size in $((limit / 8)) $((limit / 4)) $limit; do
        # five thousand functions and 4,096 sites take most of the largest size
        if [ $kind = lines ] && [ "$size" -lt $limit ]; then continue; fi
        make_source "$kind" "$size" >"$room/source.c"
        /usr/bin/time -f '%e %M' -o "$room/time" "$program" run "$room/source.c" f 1 -dfs 1 >"$room/out" 2>"$room/err" || true
        read -r seconds kilobytes < <(tail -n 1 "$room/time")
        printf '%-12s %10d %8d %10s %8d  %s\n' "$kind" "$(wc -c <"$room/source.c")" "$(wc -l <"$room/source.c")" "$seconds" $((kilobytes / 1024)) "$(head -c 60 "$room/err" | head -n 1)"
    done
done
