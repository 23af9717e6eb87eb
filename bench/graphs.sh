#!/bin/sh
# How long the first node of a large graph that needs itself takes to be found, and how much memory the run has: over each shape all nodes
# are candidates, in order. It makes a program in a folder of its own, proves it, and runs it as LLVM builds it. It wants `rt` and python3 on
# the path. With a number it makes graphs of so many nodes, else of 1,000,000.
set -e
nodes=${1:-1000000}
top=$(cd "$(dirname "$0")/.." && pwd)
work=$(mktemp -d)
trap 'rm -rf "$work"' EXIT
mkdir -p "$work/crates/bench_graphs/src"
for crate in text_kit need_graph; do
    mkdir -p "$work/crates/$crate"
    for part in src specs proofs; do
        [ ! -d "$top/crates/$crate/$part" ] || cp -r "$top/crates/$crate/$part" "$work/crates/$crate/$part"
    done
done
printf 'text_kit:\nneed_graph: text_kit\nbench_graphs: text_kit need_graph\n' > "$work/crates.txt"
printf 'Handles allowed: none.\n' > "$work/HANDLES"
cat > "$work/crates/bench_graphs/src/main.rt" <<'EOT'
#![tactic(auto)]

use need_graph::first_in_need_of_itself;
use std::alloc::Global;
use std::time::Instant;
use std::{env, io};
use text_kit::{OutOfMemory, Seq};

// What a node of a shape needs, two numbers. The last four nodes are two cycles of two; the others lie on a way from the first of these
// cycles to the second.
fn needs_of(shape: &str, end: usize, v: usize) -> (usize, usize) {
    let partner = if v % 2 == 0 { v.saturating_add(1) } else { v.saturating_sub(1) };
    let last = end.saturating_sub(1);
    let second = end.saturating_add(2);
    match shape {
        "ring" => (if v < end { v.saturating_add(1) } else { 0 }, 0),
        "rising" if v < last => (v.saturating_add(1), v.saturating_add(1)),
        "falling" if v < end && v > 0 => (v.saturating_sub(1), v.saturating_sub(1)),
        "mixed" if v < end && v > 0 => (v.wrapping_mul(2654435761) % v, v / 2),
        _ if v < end => (second, second),
        "falling" if v < second => (partner, last),
        _ if v < second => (partner, 0),
        _ => (partner, partner),
    }
}

fn graph(alloc: Global, shape: &str, count: usize) -> Result<Seq<Seq<usize>>, OutOfMemory> {
    let mut needs = Seq::with_capacity(alloc, count)?;
    for v in 0..count {
        let (one, other) = needs_of(shape, count.saturating_sub(4), v);
        needs.push(Seq::from_slice(alloc, &[one, other])?)?;
    }
    Ok(needs)
}

fn all(alloc: Global, count: usize) -> Result<Seq<usize>, OutOfMemory> {
    let mut nodes = Seq::with_capacity(alloc, count)?;
    for v in 0..count {
        nodes.push(v)?;
    }
    Ok(nodes)
}

fn run(rt: &HostRuntime, shape: &str, count: usize) -> io::Result<()> {
    let Ok(needs) = graph(rt.alloc(), shape, count) else {
        return Ok(());
    };
    let Ok(nodes) = all(rt.alloc(), count) else {
        return Ok(());
    };
    let start = Instant::now(rt)?;
    let found = first_in_need_of_itself(rt.alloc(), &needs, nodes.as_slice());
    let took = start.elapsed(rt)?.as_millis();
    println!(rt; "{shape}, {count} nodes: {found:?} in {took} ms")
}

fn main(rt: HostRuntime) -> io::Result<()> {
    let mut words = env::args(&rt)?.skip(1);
    let (Some(shape), Some(count)) = (words.next(), words.next()) else {
        return Ok(());
    };
    match count.parse::<usize>() {
        Ok(count) => run(&rt, shape.as_str(), count),
        Err(_) => Ok(()),
    }
}
EOT
(cd "$work/crates/bench_graphs" && rt run -- ring 4) > "$work/log" 2>&1 || { cat "$work/log" >&2; exit 1; }
python3 - "$work/crates/bench_graphs/out/bench_graphs" "$nodes" <<'EOT'
import resource, subprocess, sys
program, nodes = sys.argv[1:]
for shape in ("rising", "falling", "mixed", "ring"):
    run = subprocess.run([program, shape, nodes], stdout=subprocess.PIPE, check=True, text=True)
    print(run.stdout.strip())
print(f"at most {resource.getrusage(resource.RUSAGE_CHILDREN).ru_maxrss // 1024} MB")
EOT
