#!/bin/sh
# Tries ./chart as a user would: its words, its output files, its statuses, and the README's own example.
set -u
top=$(cd "$(dirname "$0")/.." && pwd)
room=$(mktemp -d) || exit 1
trap 'rm -rf "$room"' EXIT
cp -r "$top/examples" "$room/examples"
cd "$room" || exit 1
chart=$top/chart
picture=$top/crates/chart_tool/stdout
passed=0
failed=0

# One more fact: its name, and the command that tells whether it holds.
fact() {
    name=$1
    shift
    if "$@"; then
        passed=$((passed + 1))
    else
        failed=$((failed + 1))
        echo "chart: $name: failed" >&2
    fi
}

# Whether the words after the first two end with this status, write nothing, and have this last line on standard error.
ends() {
    wanted=$1
    line=$2
    shift 2
    "$chart" "$@" >out 2>notes </dev/null
    status=$?
    [ "$status" -eq "$wanted" ] && [ "$(tail -n 1 notes)" = "$line" ] && [ ! -s out ]
}

# The lines of the README that are set off after the one that begins so.
shown() {
    awk -v begin="$1" 'index($0, begin) == 1 { on = 1; next } on && /^    / { print substr($0, 5); some = 1; next } on && some { exit }' "$top/README.md"
}

the_version() {
    "$chart" --version >version && grep -q '^rattle-kit' version
}

the_picture() {
    "$chart" render examples/three-bars.json >drawn 2>notes && cmp -s drawn "$picture"
}

the_replies() {
    shown 'The output is' >wanted
    "$chart" play examples/three-bars.json <examples/fourth-bar.script >replies 2>notes
    [ -s wanted ] && cmp -s wanted replies
}

into_a_file() {
    "$chart" -o picture.svg render examples/three-bars.json 2>notes && cmp -s picture.svg "$picture"
}

a_failed_run_leaves_the_file() {
    echo kept >file
    "$chart" -o file render no-such-file.json >out 2>notes
    [ $? -eq 2 ] && [ "$(cat file)" = kept ]
}

# A repository of two crates and one apart, with an `rt` that says of them what the real one does.
a_small_tree() {
    mkdir -p tree/bin tree/crates/low/src tree/crates/apart/src tree/crates/chart_tool/src
    cp "$chart" tree
    echo 'Handles allowed: none.' >tree/HANDLES
    printf 'low:\napart: low\nchart_tool: low\n' >tree/crates.txt
    cat >tree/bin/rt <<'TEXT'
#!/bin/sh
[ "$*" != version ] || exit
for name in $(sed 's/:.*//' crates.txt); do
    printf '== %s\nrt: %s proved\n' "$name" "$name"
done
mkdir crates/chart_tool/out
printf '#!/bin/sh\necho "$@"\n' >crates/chart_tool/out/chart_tool
chmod +x crates/chart_tool/out/chart_tool
TEXT
    chmod +x tree/bin/rt
    printf 'chart: %s\n' 'proving 2 crates, 3 at a time' 'low is proved, 1 left' 'chart_tool is proved, 0 left' 'the program is proved' >told
}

telling_how_far_it_is() {
    PATH=$PWD/tree/bin:$PATH RT_JOBS=3 tree/chart --prove 2>notes && cmp -s notes told
}

the_program_that_was_proved() {
    [ "$(tree/chart render some.json)" = 'render some.json' ]
}

a_newer_source() {
    touch tree/crates/apart/src/lib.rt
    PATH=$PWD/tree/bin:$PATH tree/chart --version | grep -q '^the program is proved' || return 1
    touch tree/crates/low/src/lib.rt
    PATH=$PWD/tree/bin:$PATH tree/chart --version | grep -q "isn't proved"
}

# Whether no definition of the crates that know no Vega specification cites a crate about those.
definitions_without_vega() {
    told=0
    for crate in mark_shapes domain_kit plot_scenes scale_infer plan_kit unit_plan guide_infer chart_plan chart_meaning "$top"/crates/vl_*; do
        specs=$top/crates/${crate##*/}/specs
        if [ -d "$specs" ] && grep -rn 'Rattle\.vega_' "$specs" >&2; then
            told=1
        fi
    done
    [ "$told" -eq 0 ]
}

# Whether rendering the file ends with these two last lines on standard error: where a fault stands, and the fault.
stands_at() {
    "$chart" render "$1" >out 2>notes </dev/null
    printf 'chart: %s\n' "at $1:$2" "$3" >wanted
    tail -n 2 notes | cmp -s - wanted
}

a_compiled_picture() {
    "$chart" render dots.json >drawn 2>notes && "$chart" compile dots.json >dots-vega.json 2>notes \
        && "$chart" render dots-vega.json >again 2>notes && grep -q '^<svg ' drawn && cmp -s drawn again
}

a_small_tree
echo '{"a":1,"a":2}' >twice.json
echo '[]' >list.json
echo '{"data":{"values":[]},"mark":"point"}' >dots.json
cat >typo.json <<'TEXT'
{"data": {"values": [{"é": 1}, "a\"]"]}, "m\u0061rk": "bar",
 "transform": [
   {"filter": "true"}, {"fold": ["a"], "a/\u00e9": 1}], "typo": 2}
TEXT
printf '{"a": [1,\n       "é", 2 3]}' >list-fault.json
echo '{"hconcat": [{"mark": "bar"}]}' >no-data.json

fact "definitions without Vega" definitions_without_vega
fact "the version" the_version
fact "a picture" the_picture
fact "the example of the README" the_replies
fact "an output file" into_a_file
fact "an output file after a failure" a_failed_run_leaves_the_file
fact "telling how far proving is" telling_how_far_it_is
fact "the program that was proved" the_program_that_was_proved
fact "a source that is newer than it" a_newer_source
fact "wrong words" ends 1 'chart: words' draw examples/three-bars.json
fact "no such file" ends 2 'chart: missing no-such-file.json' render no-such-file.json
fact "no JSON text" ends 3 'chart: json twice.json at 9' render twice.json
fact "no specification" ends 4 'chart: spec wrong ' render list.json
fact "a picture in Vega-Lite, and that of its Vega text" a_compiled_picture
fact "where a fault of a specification stands" stands_at typo.json 3:40 'spec unsupported /transform/1/a~1é'
fact "where a member is missing" stands_at no-data.json 1:28 'spec missing /hconcat/0/data'
fact "where the whole is wrong" stands_at list.json 1:1 'spec wrong '
fact "where a text is no JSON" stands_at list-fault.json 2:15 'json list-fault.json at 25'

echo "chart: $passed passed, $failed failed"
[ "$failed" -eq 0 ]
