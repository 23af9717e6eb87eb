#!/bin/sh
# How long an expression takes over many rows, beside a tree-walking evaluator in Rust over rows of the same form, in nanoseconds a row:
# `datum.a` forty-nine times joined by ` + ` and then ` > 0`; and how long texts of 6 to 98 KB take to be read. It makes a program in a
# folder of its own, proves it, and runs it as LLVM builds it. Run it with `rt` and `rustc` on the path.
set -e
top=$(cd "$(dirname "$0")/.." && pwd)
work=$(mktemp -d)
trap 'rm -rf "$work"' EXIT
mkdir -p "$work/crates/bench_expressions/src"
for crate in text_kit fixed_num case_table cell_value time_calc expr_syntax expr_eval; do
    mkdir -p "$work/crates/$crate"
    for part in src specs proofs; do
        [ ! -d "$top/crates/$crate/$part" ] || cp -r "$top/crates/$crate/$part" "$work/crates/$crate/$part"
    done
    grep "^$crate:" "$top/crates.txt" >> "$work/crates.txt"
done
printf 'bench_expressions: text_kit fixed_num cell_value expr_syntax expr_eval\n' >> "$work/crates.txt"
printf 'Handles allowed: none.\n' > "$work/HANDLES"
cat > "$work/crates/bench_expressions/src/main.rt" <<'EOF'
#![tactic(auto)]

ghost use Rattle.std.specs.Prelude.{◌≡◌};

use cell_value::{Cell, Key, Keyed, Row, Steps};
use expr_eval::{NoParams, PlainRow, eval};
use expr_syntax::{BinOp, Expr, read};
use fixed_num::Num;
use std::alloc::Global;
use std::io;
use std::marker::Brand;
use std::rt::Clock;
use std::sync::ledger::{Blank, Ledger};
use std::time::Instant;
use text_kit::{Boxed, OutOfMemory, Text};

const ROWS: u32 = 100_000;

fn number(i: i64) -> Cell {
    match Num::of_millionths(i128::from(i) * 1_000) {
        Some(number) => Cell::Number(number),
        None => Cell::Null,
    }
}

fn row_of(alloc: Global, i: u32) -> Result<Keyed, OutOfMemory> {
    let mut row = Row::new(alloc);
    for name in ["a", "b", "c", "d"] {
        row.set(Text::of(alloc, name)?, number(i64::from(i) - 50_000))?;
    }
    Ok(Keyed { key: Key { id: u64::from(i), branch: 0 }, row })
}

fn field(alloc: Global) -> Result<Boxed<Expr>, OutOfMemory> {
    Boxed::new(alloc, Expr::Field(Text::of(alloc, "a")?))
}

// `datum.a` forty-nine times joined by ` + `, and ` > 0`.
fn expression(alloc: Global) -> Result<Expr, OutOfMemory> {
    let mut sum = field(alloc)?;
    for _ in 1..49 {
        sum = Boxed::new(alloc, Expr::Binary(BinOp::Add, sum, field(alloc)?))?;
    }
    let zero = match Num::of_millionths(0) {
        Some(zero) => Boxed::new(alloc, Expr::Number(zero))?,
        None => return Ok(Expr::Null),
    };
    Ok(Expr::Binary(BinOp::More, sum, zero))
}

fn value<L: Ledger>(alloc: Global, e: &Expr, keyed: &Keyed, steps: &mut Steps<L>) -> u32 {
    if keyed.key.id > 1_000_000_000_000_000 {
        return 0;
    }
    match eval(alloc, e, &PlainRow::of(keyed), &NoParams, steps) {
        Ok(Cell::Flag(true)) => 1,
        _ => 0,
    }
}

fn count<L: Ledger>(alloc: Global, e: &Expr, rows: &Vec<Keyed>, blank: Blank) -> u32
    requires name { blank.name ≡ L.name }
    requires parts { blank.parts ≡ L.parts }
{
    let mut steps = Steps::<L>::open(blank);
    let mut count: u32 = 0;
    for keyed in rows {
        count = count.wrapping_add(value(alloc, e, keyed, &mut steps));
    }
    count
}

fn rows(alloc: Global) -> Result<Vec<Keyed>, OutOfMemory> {
    let mut rows = Vec::new(alloc);
    for i in 0..ROWS {
        rows.push(row_of(alloc, i)?)?;
    }
    Ok(rows)
}

fn count_anew(alloc: Global, e: &Expr, rows: &Vec<Keyed>) -> u32 {
    count::<Brand>(alloc, e, rows, Blank::new(1))
}

fn take_time(rt: &(impl Print + Clock), alloc: Global, e: &Expr, rows: &Vec<Keyed>) -> io::Result<()> {
    let start = Instant::now(rt)?;
    let found = count_anew(alloc, e, rows);
    let time = start.elapsed(rt)?.as_nanos() / u128::from(ROWS);
    println!(rt; "proved: {time} ns a row ({found} hold)")
}

// A sum of sums that is doubled so often.
fn doubled(alloc: Global, times: u32) -> Result<Text, OutOfMemory> {
    let mut text = Text::of(alloc, "(datum.a + 1.5) * 2")?;
    for _ in 0..times {
        let mut twice = Text::of(alloc, "(")?;
        twice.push_str(text.as_str())?;
        twice.push_str(" + ")?;
        twice.push_str(text.as_str())?;
        twice.push_str(")")?;
        text = twice;
    }
    Ok(text)
}

fn read_time(rt: &(impl Print + Clock), alloc: Global, text: &Text) -> io::Result<()> {
    let start = Instant::now(rt)?;
    let is_read = read(alloc, text.as_str()).is_ok();
    let time = start.elapsed(rt)?.as_micros();
    println!(rt; "read: {} bytes in {time} us ({is_read})", text.as_str().len())
}

fn read_times(rt: &(impl Print + Clock), alloc: Global) -> io::Result<()> {
    for times in [8, 9, 10, 11, 12] {
        if let Ok(text) = doubled(alloc, times) {
            read_time(rt, alloc, &text)?;
        }
    }
    Ok(())
}

fn main(rt: HostRuntime) -> io::Result<()> {
    let alloc = rt.alloc();
    read_times(&rt, alloc)?;
    let (Ok(rows), Ok(e)) = (rows(alloc), expression(alloc)) else {
        return Ok(());
    };
    take_time(&rt, alloc, &e, &rows)?;
    take_time(&rt, alloc, &e, &rows)?;
    take_time(&rt, alloc, &e, &rows)
}
EOF
mkdir -p "$work/crates/bench_expressions/proofs/count_anew"
cat > "$work/crates/bench_expressions/proofs/count_anew/Invariants.antt" <<'EOF'
use Rattle.bench_expressions.proofs.count_anew.Given as goal

abbrev pub ghosts-count : goal.ghosts-count
ghosts-count a = record { name = a.blank.name; parts = a.blank.parts }
EOF
cat > "$work/walker.rs" <<'EOF'
use std::time::Instant;

#[derive(Clone)]
enum Cell {
    Null,
    Flag(bool),
    Number(i128),
    #[allow(dead_code)]
    Text(String),
    #[allow(dead_code)]
    Pair(i128, i128),
}

struct Row {
    cells: Vec<(String, Cell)>,
}

impl Row {
    fn get(&self, name: &str) -> Option<&Cell> {
        match self.cells.binary_search_by(|entry| entry.0.as_str().cmp(name)) {
            Ok(at) => Some(&self.cells[at].1),
            Err(_) => None,
        }
    }
}

enum Expr {
    Number(i128),
    Field(String),
    Add(Box<Expr>, Box<Expr>),
    More(Box<Expr>, Box<Expr>),
}

const LIMIT: u128 = 1_000_000_000_000_000_000_000;

enum Fault {
    Overflow,
}

fn eval(e: &Expr, row: &Row) -> Result<Cell, Fault> {
    match e {
        Expr::Number(n) => Ok(Cell::Number(*n)),
        Expr::Field(name) => Ok(row.get(name).cloned().unwrap_or(Cell::Null)),
        Expr::Add(a, b) => match (eval(a, row)?, eval(b, row)?) {
            (Cell::Number(a), Cell::Number(b)) => {
                let sum = a + b;
                if sum.unsigned_abs() <= LIMIT { Ok(Cell::Number(sum)) } else { Err(Fault::Overflow) }
            }
            _ => Ok(Cell::Null),
        },
        Expr::More(a, b) => match (eval(a, row)?, eval(b, row)?) {
            (Cell::Number(a), Cell::Number(b)) => Ok(Cell::Flag(a > b)),
            _ => Ok(Cell::Null),
        },
    }
}

fn main() {
    let rows: Vec<Row> = (0..100_000_i128)
        .map(|i| Row {
            cells: ["a", "b", "c", "d"].iter().map(|name| (name.to_string(), Cell::Number((i - 50_000) * 1_000))).collect(),
        })
        .collect();
    let field = || Box::new(Expr::Field("a".to_string()));
    let mut sum = field();
    for _ in 1..49 {
        sum = Box::new(Expr::Add(sum, field()));
    }
    let e = Expr::More(sum, Box::new(Expr::Number(0)));
    for _ in 0..3 {
        let start = Instant::now();
        let found = rows.iter().filter(|row| matches!(eval(&e, row), Ok(Cell::Flag(true)))).count();
        let time = start.elapsed().as_nanos() / 100_000;
        println!("Rust:   {time} ns a row ({found} hold)");
    }
}
EOF
(cd "$work/crates/bench_expressions" && rt run) > "$work/log" 2>&1 || { cat "$work/log" >&2; exit 1; }
"$work/crates/bench_expressions/out/bench_expressions"
rustc -O -o "$work/walker" "$work/walker.rs"
"$work/walker"
