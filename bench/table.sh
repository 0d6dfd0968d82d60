#!/bin/sh
# Times the built program on inputs of its own, by hand and outside the gate: each at a tenth of its size and whole.
# It prints the seconds of both, the calls or bytes a second of the whole, and how many times longer the whole took.
# usage: bench/table.sh [program]
top=$(cd "$(dirname "$0")/.." && pwd) || exit 1
program=${1:-$top/crates/convexd/out/convexd}
[ -x "$program" ] || { echo "bench/table.sh: $program isn't built"; exit 0; }
here=$(mktemp -d) || exit 1
trap 'rm -rf "$here"' EXIT
session=00000000-0000-0000-0000-000000000001

# calls COUNT FUNCTION ARGS: so many lines; %d in the arguments is the line's number, %f one that falls
calls() {
    awk -v n="$1" -v f="$2" -v a="$3" -v s="$session" \
        'BEGIN { for (i = 1; i <= n; i++) { x = a; gsub(/%d/, i, x); gsub(/%f/, n - i, x); printf "call %s %d %s %s\n", s, i, f, x } }'
}

# inserts COUNT INDEXES NUMBER
inserts() {
    printf 'table t { %s }\nmutation m:put(n) { insert("t", {n: n}); return n; }\n%%%%\n' "$2"
    calls "$1" m:put "{\"n\":$3}"
}

# patches COUNT: of one document
patches() {
    printf 'table t { index by_n(n); }\nmutation m:make() { return insert("t", {n: 0}); }\nmutation m:set(id, n) { patch(id, {n: n}); return n; }\n%%%%\n'
    echo "call 00000000-0000-0000-0000-000000000009 1 m:make {}"
    calls "$1" m:set '{"id":"000000000000000000000000000000000009000000010000","n":%d}'
}

# pushes COUNT: onto one array, in one call
pushes() {
    printf 'mutation e:push(n) { let a = []; for (i in range(0, n)) { a = push(a, i); } return len(a); }\n%%%%\n'
    echo "call $session 1 e:push {\"n\":$1}"
}

# scans COUNT: over 1,000 rows
scans() {
    printf 'table t { index by_n(n); }\nmutation m:fill() { for (i in range(0, 1000)) { insert("t", {n: i}); } return 0; }\nmutation m:all() { return len(scan("t", "by_n", n >= 0)); }\n%%%%\n'
    echo "call 00000000-0000-0000-0000-000000000002 1 m:fill {}"
    calls "$1" m:all '{}'
}

# loops COUNT: up to the limit of cost
loops() {
    printf 'mutation e:spin(a, b, c) { for (i in range(0, a)) { for (j in range(0, b)) { } } for (k in range(0, c)) { } return 1; }\n%%%%\n'
    calls "$1" e:spin '{"a":12,"b":8190,"c":1693}'
}

# a module of so many bytes or a few more
module() {
    awk -v n="$1" 'BEGIN { size = 0; for (i = 0; size < n; i++) { l = sprintf("mutation m:f%d(x) { let y = x + %d; return [y, {k: y}]; }", i, i); if (size + length(l) + 1 > n) exit; print l; size += length(l) + 1 } }'
}

# a script of so many bytes whose last line is bad
refused() {
    printf 'mutation m:nop(x) { return null; }\n%%%%\n'
    awk -v n="$1" -v s="$session" 'BEGIN { t = sprintf("%900s", ""); gsub(/ /, "x", t); size = 0; for (i = 1; size < n; i++) { l = sprintf("call %s %d m:nop {\"x\":\"%s\"}", s, i, t); print l; size += length(l) + 1 } }'
    echo "no line"
}

# seconds COMMAND: of the program over the file
seconds() {
    start=$(date +%s.%N)
    "$program" "$1" < "$here/input" > "$here/out" 2> "$here/err"
    end=$(date +%s.%N)
    echo "$end - $start" | bc
}

# row NAME COMMAND WHOLE GENERATOR ARGS..: the generator is given a size first
row() {
    name=$1 command=$2 whole=$3 make=$4
    shift 4
    "$make" $((whole / 10)) "$@" > "$here/input"
    tenth=$(seconds "$command")
    "$make" "$whole" "$@" > "$here/input"
    all=$(seconds "$command")
    awk -v name="$name" -v t="$tenth" -v a="$all" -v n="$whole" \
        'BEGIN { printf "%-44s %9.2f s %9.2f s %12.0f a second %8.1f times\n", name, t, a, n / a, a / t }'
}

printf '%-44s %11s %11s %21s %14s\n' "" "a tenth" "whole" "" "growth"
row "50,000 inserts" replay 50000 inserts "" %d
row "50,000 inserts with a declared index" replay 50000 inserts "index by_n(n);" %d
row "50,000 inserts, each before the others" replay 50000 inserts "index by_n(n);" %f
row "20,000 patches of one document" replay 20000 patches
row "2,000 scans of 1,000 rows" replay 2000 scans
row "200 loops up to the limit of cost" replay 200 loops
row "5,000 pushes onto one array" replay 5000 pushes
row "check of a module of 1,048,576 bytes" check 1048576 module
row "a script of 60 MB, refused in its last line" replay 60000000 refused
