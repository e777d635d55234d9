#!/bin/bash
# Times `report` and `compile` on the generated program with 10, 100 and 1,000 functions, and tells the seconds and the greatest memory.
# Usage: bench/report.sh [PROGRAM]: by default the program that the launcher builds.
set -e
here=$(cd "$(dirname "$0")" && pwd)
program=${1:-$here/../ckpt}
work=$(mktemp -d)
generated() {
    python3 - "$1" <<'SOURCE'
import sys

n = int(sys.argv[1])
print("#define TURNS 20")
for k in range(n):
    m = (37 * n + 101 * k) % 1000
    print(f"long g{k}[64]; long s{k};")
    print(f"long f{k}(long v) {{ long i; i = 0; while (i < 64) {{ g{k}[i] = g{k}[i] + v * {m} + i; i = i + 1; }} s{k} = g{k}[v]; return s{k}; }}")
print("int main(void) { long t; long r; long w; w = 0; EXCLUDE_HERE; for (t = 0; t < TURNS; t = t + 1) {")
for k in range(n):
    print(f"r = f{k}(t); w = w + r;")
print('CHECKPOINT_HERE; } printf("%ld\\n", w); return 0; }')
SOURCE
}
for n in 10 100 1000; do
    generated $n > "$work/generated.c"
    for command in check report compile; do
        /usr/bin/time -f "$command, $n functions: %e s, %M KiB" "$program" $command "$work/generated.c" > "$work/text"
    done
    echo "  $(head -c 60 "$work/text" | tr '\n' ' ') .., $(wc -l < "$work/text") lines"
done
