#!/bin/sh
# How long the plan of a Vega-Lite dashboard takes, in microseconds: eleven units in seven plots, with three parameters. The specification is
# built once, and planned 1,000 times.
# It makes a program in a folder of its own with copies of the crates, proves it and those that no earlier run on the machine proved, and
# builds it. Run it with `rt` and python3 on the path:
#     bench/plans.sh
set -e
top=$(cd "$(dirname "$0")/.." && pwd)
work=$(mktemp -d)
trap 'rm -rf "$work"' EXIT
mkdir -p "$work/.git" "$work/crates/bench_plans/src"
copy() {
    [ ! -e "$work/crates/$1" ] || return 0
    mkdir -p "$work/crates/$1"
    for part in src specs proofs; do
        [ ! -d "$top/crates/$1/$part" ] || cp -rp "$top/crates/$1/$part" "$work/crates/$1/$part"
    done
    grep "^$1:" "$top/crates.txt" >> "$work/crates.txt"
    for below in $(sed -n "s/^$1://p" "$top/crates.txt"); do
        [ ! -d "$top/crates/$below" ] || copy "$below"
    done
}
copy vl_building
copy chart_plan
printf 'bench_plans: text_kit json_exact vl_spec vl_building chart_plan\n' >> "$work/crates.txt"
printf 'Handles allowed: none.\n' > "$work/HANDLES"
cat > "$work/crates/bench_plans/src/main.rt" <<'EOT'
#![tactic(auto)]

use chart_plan::plan_of;
use std::alloc::Global;
use std::io;
use std::rt::Clock;
use std::time::Instant;
use text_kit::OutOfMemory;
use vl_building::spec_of;
use vl_spec::VlSpec;

const TURNS: u32 = 1_000;

// How many units and plots the plan of a specification has, which is made many times.
fn planned(alloc: Global, s: &VlSpec) -> Result<(usize, usize), OutOfMemory> {
    let mut found = (0, 0);
    for _ in 0..TURNS {
        let plan = plan_of(alloc, s)?;
        found = (plan.units.len(), plan.plots.len());
    }
    Ok(found)
}

// The specification of a text.
fn built(alloc: Global, text: &str) -> Result<VlSpec, OutOfMemory> {
    match json_exact::read(alloc, text.as_bytes()) {
        Ok(tree) => spec_of(alloc, &tree),
        Err(_) => Err(OutOfMemory),
    }
}

// Tells how long the plan of a text takes.
fn tell(rt: &(impl Print + Clock), alloc: Global, text: &str) -> io::Result<()> {
    let Ok(s) = built(alloc, text) else {
        return println!(rt; "no specification");
    };
    let start = Instant::now(rt)?;
    let Ok((units, plots)) = planned(alloc, &s) else {
        return println!(rt; "no memory");
    };
    let time = start.elapsed(rt)?.as_micros() / u128::from(TURNS);
    println!(rt; "{units} units in {plots} plots: {time} microseconds")
}

fn main(rt: HostRuntime) -> io::Result<()> {
    let alloc = rt.alloc();
    for line in rt.lines(alloc) {
        let line = line?;
        tell(&rt, alloc, line.as_str())?;
    }
    Ok(())
}
EOT
python3 -c 'import json, sys; print(json.dumps(json.load(sys.stdin)))' > "$work/dashboard" <<'EOT'
{"data": {"name": "t"},
 "title": "Sales",
 "params": [{"name": "brush", "select": {"type": "interval", "encodings": ["x"]}}, {"name": "pick", "select": {"type": "point", "encodings": ["color"]}}, {"name": "least", "value": 3}],
 "transform": [{"filter": {"param": "brush"}}, {"calculate": "datum.price * datum.count", "as": "sum"}],
 "vconcat": [
  {"hconcat": [
   {"title": "By kind", "mark": "bar", "encoding": {"x": {"field": "kind", "type": "nominal", "sort": "-y"}, "y": {"field": "sum", "type": "quantitative", "aggregate": "sum"}, "color": {"field": "region", "type": "nominal"}}},
   {"title": "Over time", "layer": [{"mark": {"type": "line", "point": true}, "encoding": {"x": {"field": "date", "type": "temporal", "timeUnit": "yearmonth"}, "y": {"field": "sum", "type": "quantitative", "aggregate": "mean"}, "color": {"condition": {"param": "pick", "field": "kind", "type": "nominal"}, "value": "lightgray"}}}, {"mark": "rule", "encoding": {"y": {"field": "goal", "type": "quantitative", "aggregate": "mean"}, "color": {"value": "red"}}}, {"mark": "text", "encoding": {"x": {"field": "date", "type": "temporal", "timeUnit": "yearmonth"}, "y": {"field": "goal", "type": "quantitative", "aggregate": "mean"}, "text": {"field": "goal", "type": "quantitative", "aggregate": "mean", "format": ",.1f"}}}]},
   {"title": "Prices", "mark": "bar", "encoding": {"x": {"field": "price", "type": "quantitative", "bin": {"maxbins": 20}}, "y": {"aggregate": "count"}, "color": {"condition": {"param": "pick", "field": "kind", "type": "nominal"}, "value": "lightgray"}}}]},
  {"hconcat": [
   {"facet": {"field": "region", "type": "nominal", "columns": 2}, "columns": 2, "resolve": {"scale": {"y": "independent"}}, "spec": {"width": 120, "height": 90, "mark": "circle", "encoding": {"x": {"field": "price", "type": "quantitative"}, "y": {"field": "sum", "type": "quantitative"}, "color": {"condition": {"param": "pick", "field": "kind", "type": "nominal"}, "value": "lightgray"}, "size": {"field": "count", "type": "quantitative"}, "opacity": {"condition": {"test": "datum.count > 3", "value": 0.9}, "value": 0.2}}}},
   {"mark": "area", "encoding": {"x": {"field": "date", "type": "temporal", "timeUnit": "yearmonth"}, "y": {"field": "sum", "type": "quantitative", "aggregate": "sum", "stack": "normalize"}, "color": {"field": "kind", "type": "nominal"}}},
   {"mark": "point", "encoding": {"row": {"field": "region", "type": "nominal"}, "column": {"field": "kind", "type": "nominal", "sort": ["a", "b"]}, "x": {"field": "price", "type": "quantitative"}, "y": {"field": "count", "type": "quantitative"}, "shape": {"field": "kind", "type": "nominal"}}}]},
  {"resolve": {"scale": {"y": "independent"}}, "layer": [
   {"mark": "bar", "encoding": {"x": {"field": "kind", "type": "nominal"}, "y": {"field": "sum", "type": "quantitative", "aggregate": "sum"}}},
   {"mark": "tick", "encoding": {"x": {"field": "kind", "type": "nominal"}, "y": {"field": "count", "type": "quantitative", "aggregate": "median"}}}]}]}
EOT
(cd "$work" && RT_JOBS=${RT_JOBS:-$(nproc)} rt ci) > "$work/log" 2>&1 || { cat "$work/log" >&2; exit 1; }
"$work/crates/bench_plans/out/bench_plans" < "$work/dashboard"
