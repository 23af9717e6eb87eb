#!/bin/sh
# How long Vega-Lite specifications take, good ones and bad ones, in seconds of processor time, and how much memory: read as JSON and judged
# by the table of members, as the program `vl_table` does it, and read as JSON and built, as a program does it that this script makes in a
# folder of its own. Each is measured at a quarter, at half and at all of 16 MiB, with how many times as long it takes as the one of half its
# size: about 2, where time is linear. Beside them python3's json on the same bytes. It ends with a status other than 0 where an answer
# isn't the expected one.
# It proves and builds both programs first, and the crates of the repository that they stand on, which stay proved. Run it with `rt` and
# python3 on the path:
#     bench/vl.sh [BYTES]     (in place of 16 MiB)
set -e
top=$(cd "$(dirname "$0")/.." && pwd)
(cd "$top/crates/vl_table" && rt run < stdin > /dev/null)
(cd "$top/crates/vl_building" && rt lib > /dev/null)
work=$(mktemp -d)
trap 'rm -rf "$work"' EXIT
mkdir -p "$work/crates/bench_building/src"
copy() {
    [ ! -e "$work/crates/$1" ] || return 0
    mkdir -p "$work/crates/$1/out"
    for part in src specs proofs out/rlib; do
        [ ! -d "$top/crates/$1/$part" ] || cp -rp "$top/crates/$1/$part" "$work/crates/$1/$part"
    done
    grep "^$1:" "$top/crates.txt" >> "$work/crates.txt"
    for below in $(sed -n "s/^$1://p" "$top/crates.txt"); do
        [ ! -d "$top/crates/$below" ] || copy "$below"
    done
}
copy vl_building
printf 'bench_building: text_kit fixed_num json_exact cell_value expr_syntax vl_spec vl_building\n' >> "$work/crates.txt"
printf 'Handles allowed: none.\n' > "$work/HANDLES"
cat > "$work/crates/bench_building/src/main.rt" <<'EOT'
#![tactic(auto)]

use std::alloc::Global;
use std::io;
use text_kit::OutOfMemory;
use vl_building::spec_of;

// What the specification of a text has.
fn built(alloc: Global, text: &str) -> io::Result<String> {
    let Ok(tree) = json_exact::read(alloc, text.as_bytes()) else {
        return Ok(String::from_str(alloc, "no JSON")?);
    };
    match spec_of(alloc, &tree) {
        Ok(spec) => Ok(format!(in alloc; "{} sources, {} parameters", spec.sources.len(), spec.params.len())?),
        Err(OutOfMemory) => Ok(String::from_str(alloc, "no memory")?),
    }
}

fn main(rt: HostRuntime) -> io::Result<()> {
    let alloc = rt.alloc();
    for line in rt.lines(alloc) {
        let line = line?;
        let answer = built(alloc, line.as_str())?;
        println!(rt; "{answer}")?;
    }
    Ok(())
}
EOT
(cd "$work/crates/bench_building" && echo '{}' | rt run) > "$work/log" 2>&1 || { cat "$work/log" >&2; exit 1; }
python3 "$top/bench/vl.py" "$top/crates/vl_table/out/vl_table" "$work/crates/bench_building/out/bench_building" "$@"
