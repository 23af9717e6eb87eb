#!/bin/sh
# Times scripts of COUNT inserts of one row and a print at the end, and tells their peak memory. The plain engine evaluates the whole chart
# after each insert, so the time grows with the square of COUNT. It wants `rt`, python3 and awk on the path, and GNU time in /usr/bin.
set -e
if [ $# -eq 0 ]; then
    echo "usage: bench/play.sh COUNT.." >&2
    exit 1
fi
top=$(cd "$(dirname "$0")/.." && pwd)
work=$(mktemp -d)
trap 'rm -rf "$work"' EXIT
"$top/chart" render "$top/examples/three-bars.json" > /dev/null
for count in "$@"; do
    python3 - "$count" > "$work/script" <<'PYTHON'
import sys
count = int(sys.argv[1])
sys.stdout.write('["change","t",{"insert":[{"a":"D","b":1}]}]\n' * count)
sys.stdout.write('["print"]\n')
PYTHON
    /usr/bin/time -f '%e %M' -o "$work/time" "$top/crates/chart_tool/out/chart_tool" play "$top/examples/three-bars.json" < "$work/script" > "$work/out"
    awk -v count="$count" '{ printf "%d inserts: %.2f s, %.0f lines a second, %.1f MiB at the peak\n", count, $1, (count + 1) / $1, $2 / 1024 }' "$work/time"
done
