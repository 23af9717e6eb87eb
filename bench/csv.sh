#!/bin/sh
# How long CSV takes to be read as rows, file by file, beside the kit's csv alone on the same bytes: once into one record that is used
# again, and once into a list of records. Each is the least of five turns.
# It makes a program in a folder of its own, proves it, and runs it as LLVM builds it. Run it with `rt` on the path. Without files it makes
# three of 16 MiB: many short fields, wide rows, and long fields.
set -e
top=$(cd "$(dirname "$0")/.." && pwd)
work=$(mktemp -d)
trap 'rm -rf "$work"' EXIT
mkdir -p "$work/crates/bench_csv/src"
for crate in text_kit fixed_num case_table json_exact cell_value time_calc data_rows; do
    mkdir -p "$work/crates/$crate"
    for part in src specs proofs; do
        [ ! -d "$top/crates/$crate/$part" ] || cp -r "$top/crates/$crate/$part" "$work/crates/$crate/$part"
    done
    grep "^$crate:" "$top/crates.txt" >> "$work/crates.txt"
done
printf 'bench_csv: text_kit cell_value data_rows csv\n' >> "$work/crates.txt"
printf 'Handles allowed: none.\n' > "$work/HANDLES"
cat > "$work/crates/bench_csv/src/main.rt" <<'EOF'
#![tactic(auto)]

use csv::{ReaderBuilder, StringRecord};
use data_rows::rows_of_csv;
use std::alloc::Global;
use std::time::Instant;
use std::{env, fs, io};
use text_kit::Seq;

// How many records there are, each read into one record.
fn counted(alloc: Global, bytes: &[u8]) -> u64 {
    let mut reader = ReaderBuilder::new().has_headers(false).flexible(true).from_reader(alloc, bytes);
    let mut record = StringRecord::new(alloc);
    let mut count = 0;
    for n in 0..u64::MAX {
        match reader.read_record(&mut record) {
            Ok(true) => count = n,
            _ => return count,
        }
    }
    count
}

// How many records there are, each kept.
fn kept(alloc: Global, bytes: &[u8]) -> usize {
    let mut records = Seq::new(alloc);
    for record in ReaderBuilder::new().has_headers(false).flexible(true).from_reader(alloc, bytes).into_records() {
        let Ok(record) = record else {
            return 0;
        };
        if records.push(record).is_err() {
            return 0;
        }
    }
    records.len()
}

// How many rows there are.
fn rows(alloc: Global, bytes: &[u8]) -> usize {
    match rows_of_csv(alloc, bytes, &Seq::new(alloc)) {
        Ok(rows) => rows.len(),
        Err(_) => 0,
    }
}

fn main(rt: HostRuntime) -> io::Result<()> {
    for word in env::args(&rt)?.skip(1) {
        let bytes = fs::read(&rt, word.as_str())?;
        let mut least = [u128::MAX; 3];
        let mut count = 0;
        for _ in 0..5 {
            let start = Instant::now(&rt)?;
            let records = counted(rt.alloc(), &bytes);
            least[0] = least[0].min(start.elapsed(&rt)?.as_millis());
            let start = Instant::now(&rt)?;
            let others = kept(rt.alloc(), &bytes);
            least[1] = least[1].min(start.elapsed(&rt)?.as_millis());
            let start = Instant::now(&rt)?;
            count = rows(rt.alloc(), &bytes);
            least[2] = least[2].min(start.elapsed(&rt)?.as_millis());
            if records == 0 || others == 0 || count == 0 {
                println!(rt; "{word} is not read")?;
                return Ok(());
            }
        }
        let one = least[0];
        let list = least[1];
        let all = least[2];
        println!(rt; "{word}: csv into one record in {one} ms, into a list of records in {list} ms; {count} rows in {all} ms")?;
    }
    Ok(())
}
EOF
if [ $# -eq 0 ]; then
    python3 - "$work" <<'EOF'
import random, sys
random.seed(1)
size = 16 * 1024 * 1024
def made(name, header, row):
    parts = [header]
    length = len(header)
    while length < size:
        line = row()
        parts.append(line)
        length += len(line)
    open(f"{sys.argv[1]}/{name}", "w").write("".join(parts)[:size].rsplit("\n", 1)[0] + "\n")
made("short.csv", "a,b\n", lambda: f"c{random.randrange(12)},{random.randrange(1001)}\n")
names = [f"column_{i}" for i in range(10)]
made("wide.csv", ",".join(names) + "\n", lambda: ",".join(str(random.randrange(10**6)) if i % 2 else f"text {random.randrange(1000)}" for i in range(10)) + "\n")
made("long.csv", "name,note,amount\n", lambda: f"row {random.randrange(10**6)},\"{'a longer note, with a comma; ' * 12}\",{random.random() * 1000:.6f}\n")
EOF
    set -- "$work/short.csv" "$work/wide.csv" "$work/long.csv"
fi
printf 'a\n1\n' > "$work/small.csv"
(cd "$work/crates/bench_csv" && rt run -- "$work/small.csv") > "$work/log" 2>&1 || { cat "$work/log" >&2; exit 1; }
"$work/crates/bench_csv/out/bench_csv" "$@"
