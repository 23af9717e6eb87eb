#!/bin/sh
# How long JSON takes to be read and written, file by file, beside python3's json on the same bytes.
# It makes a program in a folder of its own, proves it, and runs it as LLVM builds it. Run it with `rt` on the path.
set -e
if [ $# -eq 0 ]; then
    echo "usage: bench/json.sh FILE.." >&2
    exit 1
fi
top=$(cd "$(dirname "$0")/.." && pwd)
work=$(mktemp -d)
trap 'rm -rf "$work"' EXIT
mkdir -p "$work/crates/bench_json/src"
for crate in text_kit fixed_num json_exact; do
    mkdir -p "$work/crates/$crate"
    for part in src specs proofs; do
        [ ! -d "$top/crates/$crate/$part" ] || cp -r "$top/crates/$crate/$part" "$work/crates/$crate/$part"
    done
done
printf 'text_kit:\nfixed_num: itoa\njson_exact: text_kit fixed_num\nbench_json: text_kit json_exact\n' > "$work/crates.txt"
printf 'Handles allowed: none.\n' > "$work/HANDLES"
cat > "$work/crates/bench_json/src/main.rt" <<'EOF'
#![tactic(auto)]

use json_exact::{read, write};
use std::time::Instant;
use std::{env, fs, io};

fn main(rt: HostRuntime) -> io::Result<()> {
    for word in env::args(&rt)?.skip(1) {
        let bytes = fs::read(&rt, word.as_str())?;
        let start = Instant::now(&rt)?;
        let Ok(tree) = read(rt.alloc(), &bytes) else {
            println!(rt; "{word} is not read")?;
            return Ok(());
        };
        let reading = start.elapsed(&rt)?.as_millis();
        let start = Instant::now(&rt)?;
        let Ok(text) = write(rt.alloc(), &tree) else {
            println!(rt; "{word} is not written")?;
            return Ok(());
        };
        let writing = start.elapsed(&rt)?.as_millis();
        let len = text.len();
        println!(rt; "{word}: read in {reading} ms, written in {writing} ms, {len} bytes")?;
    }
    Ok(())
}
EOF
printf '[]' > "$work/empty.json"
(cd "$work/crates/bench_json" && rt run -- "$work/empty.json") > "$work/log" 2>&1 || { cat "$work/log" >&2; exit 1; }
"$work/crates/bench_json/out/bench_json" "$@"
python3 - "$@" <<'EOF'
import json, sys, time
sys.setrecursionlimit(10_000)
if hasattr(sys, "set_int_max_str_digits"):
    sys.set_int_max_str_digits(0)
for name in sys.argv[1:]:
    text = open(name, "rb").read()
    start = time.time()
    tree = json.loads(text)
    reading = time.time() - start
    start = time.time()
    json.dumps(tree, separators=(",", ":"), ensure_ascii=False).encode()
    writing = time.time() - start
    print(f"{name}: python3 read in {reading * 1000:.0f} ms, written in {writing * 1000:.0f} ms")
EOF
