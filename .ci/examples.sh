#!/bin/sh
# Compares what the program makes of each example with what is stored beside it: NAME.json with NAME.svg, and with NAME.replies where there is
# a NAME.script, whose last picture is NAME.after.svg where there is one. A Vega-Lite specification is compiled besides, and its Vega text has to give
# the same bytes. `examples.sh --make FILE..` writes what is stored beside these specifications anew.
set -u
top=$(cd "$(dirname "$0")/.." && pwd)
cd "$top" || exit 1
room=$(mktemp -d ./.examples.XXXXXX) || exit 1
trap 'rm -rf "$room"' EXIT
out=$room/out
passed=0
failed=0

# One more comparison: its name, the file that is wanted, and the words; the output is in $out.
compare() {
    name=$1
    wanted=$2
    shift 2
    if ./chart "$@" >"$out" 2>/dev/null && cmp -s "$out" "$wanted"; then
        passed=$((passed + 1))
    else
        failed=$((failed + 1))
        echo "examples: $name: failed" >&2
    fi
}

is_vega() {
    grep -q '/schema/vega/' "$1"
}

# The last picture of some replies.
last_picture() {
    awk '/^<svg/ { picture = "" } { picture = picture $0 "\n" } END { printf "%s", picture }' "$1"
}

if [ "${1:-}" = --make ]; then
    shift
    for spec in "$@"; do
        name=${spec%.json}
        ./chart render "$spec" >"$name.svg" || exit 1
        [ -f "$name.script" ] || continue
        ./chart play "$spec" <"$name.script" >"$name.replies" || exit 1
        last_picture "$name.replies" >"$name.after.svg"
    done
    exit
fi

for picture in examples/*.svg examples/vega-lite/*.svg; do
    case $picture in *.after.svg) continue ;; esac
    spec=${picture%.svg}.json
    compare "$spec" "$picture" render "$spec" </dev/null
    is_vega "$spec" && continue
    ./chart compile "$spec" >"$room/vega.json" 2>/dev/null </dev/null
    compare "$spec, compiled" "$picture" render "$room/vega.json" </dev/null
done
for replies in examples/*.replies examples/vega-lite/*.replies; do
    [ -f "$replies" ] || continue
    script=${replies%.replies}.script
    spec=${replies%.replies}.json
    compare "$script" "$replies" play "$spec" <"$script"
    is_vega "$spec" && continue
    ./chart compile "$spec" >"$room/vega.json" 2>/dev/null </dev/null
    compare "$script, compiled" "$replies" play "$room/vega.json" <"$script"
done
for after in examples/*.after.svg examples/vega-lite/*.after.svg; do
    [ -f "$after" ] || continue
    last_picture "${after%.after.svg}.replies" >"$out"
    if cmp -s "$out" "$after"; then
        passed=$((passed + 1))
    else
        failed=$((failed + 1))
        echo "examples: $after: failed" >&2
    fi
done

echo "examples: $passed passed, $failed failed"
[ "$failed" -eq 0 ]
