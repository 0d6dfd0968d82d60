#!/bin/sh
# Times the machine through the built program, by hand and outside the gate: loops up to the limit of cost, and
# loops over arithmetic and field access that cost 90,000 units, each in ten calls. It prints the seconds of each.
cd "$(dirname "$0")/.." || exit 1
program=crates/convexd/out/convexd
[ -x "$program" ] || { echo "bench/loops.sh: $program isn't built"; exit 0; }
here=$(mktemp -d) || exit 1
trap 'rm -rf "$here"' EXIT

cat > "$here/module" <<'MODULE'
mutation e:spin(a, b, c) {
  for (i in range(0, a)) { for (j in range(0, b)) { } }
  for (k in range(0, c)) { }
  return 1;
}
mutation e:sums() {
  let o = {n: 0, by: 3};
  let s = 0;
  for (i in range(0, 9)) {
    for (j in range(0, 5000)) { s = s + o.by * j % 7; }
  }
  return s;
}
MODULE

# script NAME ARGS: ten calls of one function
script() {
    cat "$here/module"
    echo '%%'
    n=1
    while [ $n -le 10 ]; do
        echo "call 00000000-0000-0000-0000-000000000001 $n $1 $2"
        n=$((n + 1))
    done
}

# timed NAME ARGS
timed() {
    script "$1" "$2" > "$here/script"
    start=$(date +%s.%N)
    "$program" replay < "$here/script" > "$here/out" || exit 1
    end=$(date +%s.%N)
    echo "$1: $(echo "$end - $start" | bc) seconds for ten calls, the last: $(tail -2 "$here/out" | head -1)"
}

timed e:spin '{"a":12,"b":8190,"c":1693}'
timed e:sums '{}'
