#!/bin/sh
# Does what docs/USING.md says, in a folder of its own, and compares what comes with what stands there. Tried are
# - files: a line that ends with "file `NAME`:", and the block below it;
# - commands: a line that begins with a command and ends with a colon, and the block below it, which is the output, or after "fails with N:"
#   the last line on standard error;
# - commands that make something: those before the word "makes";
# - the rows of tables below a line that says what stands in them: lines of a script with their replies, texts and members of specifications
#   with the line that each fails with, and expressions with their values.
set -u
top=$(cd "$(dirname "$0")/.." && pwd)
room=$(mktemp -d) || exit 1
trap 'rm -rf "$room"' EXIT
mkdir "$room/steps" "$room/work" "$room/bin"
printf '#!/bin/sh\nexec "%s/chart" "$@"\n' "$top" >"$room/bin/chart"
chmod +x "$room/bin/chart"
PATH=$room/bin:$PATH

# Each step is a file of `steps`: its kind with a word or two in the first line, and then its block, or what is wanted and what is given.
awk -v steps="$room/steps" '
    function first_code(text) { sub(/^[^`]*`/, "", text); sub(/`.*/, "", text); return text }
    function code_before(text, word) { text = substr(text, 1, index(text, "` " word) - 1); sub(/.*`/, "", text); return text }
    function begin(head) { at = sprintf("%s/%04d", steps, ++count); print head > at }
    open && /^    / { print substr($0, 5) > at; some = 1; next }
    open && some { close(at); open = 0 }
    /^#/ { mode = "" }
    /by itself over `/ { mode = $0; sub(/.*by itself over `/, "", mode); sub(/`.*/, "", mode); mode = "reply " mode }
    /is the text of `fault.json`:$/ { mode = "text" }
    /stands in `fault.json` behind its/ { mode = "members" }
    /has the value beside it:$/ { mode = "value" }
    mode != "" && /^\| `/ {
        split($0, cells, / \| /)
        begin(mode)
        print first_code(cells[1]) > at
        print first_code(cells[2]) > at
        close(at)
        next
    }
    /file `[^`]*`:$/ { name = $0; sub(/`:$/, "", name); sub(/.*`/, "", name); begin("file " name); open = 1; some = 0; next }
    /^`.*`.*:$/ {
        status = 0
        if ($0 ~ /fails with [0-9]+:$/) { status = $0; sub(/.*fails with /, "", status); sub(/:$/, "", status) }
        begin("run " status " " first_code($0)); open = 1; some = 0
        next
    }
    /` makes / { begin("make " code_before($0, "makes")); close(at) }
' "$top/docs/USING.md"

passed=0
failed=0

# One more comparison: what it is of, whether the run ended as it should, and the files with what came and what is wanted.
compare() {
    if [ "$2" -eq 0 ] && cmp -s "$3" "$4"; then
        passed=$((passed + 1))
        return
    fi
    failed=$((failed + 1))
    echo "using: $1: failed" >&2
    diff "$3" "$4" | head -n 5 >&2
}

# The status that belongs to a line on standard error.
status_of() {
    case $1 in
        'chart: words' | 'chart: -o '*) echo 1 ;;
        'chart: missing '*) echo 2 ;;
        'chart: json '*) echo 3 ;;
        'chart: spec '*) echo 4 ;;
        'chart: row '*) echo 5 ;;
        'chart: overflow') echo 6 ;;
        'chart: read') echo 7 ;;
        'chart: write') echo 8 ;;
        'chart: memory') echo 9 ;;
        'chart: size '*) echo 10 ;;
        'chart: panels '*) echo 11 ;;
        *) echo 255 ;;
    esac
}

# Runs a command. What came is its output, or where it should fail its last line on standard error.
run() {
    name=$1
    wanted=$2
    sh -c "$name" >"$room/out" 2>"$room/notes" </dev/null
    status=$?
    if [ "$wanted" -ne 0 ]; then
        # a path that is empty leaves a blank at the end
        tail -n 1 "$room/notes" | sed 's/ *$//' >"$room/out"
    fi
    [ "$status" -eq "$wanted" ]
    compare "$name" $? "$room/out" "$room/wanted"
}

cd "$room/work" || exit 1
for step in "$room"/steps/*; do
    head=$(sed -n 1p "$step")
    first=$(sed -n 2p "$step")
    second=$(sed -n 3p "$step")
    rest=${head#* }
    case $head in
        file\ *)
            sed 1d "$step" >"$rest"
            ;;
        make\ *)
            sh -c "$rest" >"$room/out" 2>&1
            compare "$rest" $? /dev/null "$room/out"
            ;;
        run\ *)
            sed 1d "$step" >"$room/wanted"
            run "${rest#* }" "${rest%% *}"
            ;;
        reply\ *)
            printf '%s\n' "$first" >"$room/wanted"
            printf '%s\n' "$second" | chart play "$rest" >"$room/out" 2>/dev/null
            compare "$second" $? "$room/out" "$room/wanted"
            ;;
        text)
            printf '%s\n' "$second" >fault.json
            printf '%s\n' "$first" >"$room/wanted"
            run 'chart render fault.json' "$(status_of "$first")"
            ;;
        members)
            printf '{"$schema": "https://vega.github.io/schema/vega/v5.json", %s}\n' "$second" >fault.json
            printf '%s\n' "$first" >"$room/wanted"
            run 'chart render fault.json' "$(status_of "$first")"
            ;;
        value)
            printf '{"$schema": "/schema/vega/", "signals": [{"name": "v", "update": "%s"}], "data": [{"name": "t", "values": [0]}], ' "$first" >value.json
            printf '"marks": [{"type": "text", "from": {"data": "t"}, "encode": {"update": {"text": {"signal": "v"}}}}]}\n' >>value.json
            printf '%s\n' "$second" >"$room/wanted"
            chart render value.json >"$room/all" 2>/dev/null
            status=$?
            sed -n 's/^<text[^>]*>\(.*\)<\/text>$/\1/p' "$room/all" >"$room/out"
            compare "$first" "$status" "$room/out" "$room/wanted"
            ;;
    esac
done

echo "using: $passed passed, $failed failed"
[ "$failed" -eq 0 ] && [ "$passed" -gt 0 ]
